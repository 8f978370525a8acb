"""`estate lines`: descriptors of exports, as `sdstore each --key` takes them. Bytes and texts are written here by hand, by
[MS-DTYP] 2.4.6 and 2.5.1.1."""

import base64
import subprocess
from pathlib import Path

from rig import SDSTORE, Case, needs_program

#: A protected DACL without entries, O:SY, and the latter with an offset behind its end.
PROTECTED = bytes.fromhex("0100049000000000000000000000000014000000" "0200080000000000")
SYSTEM = bytes.fromhex("0100008014000000000000000000000000000000" "010100000000000512000000")
BROKEN = bytes.fromhex("01000080ff000000000000000000000000000000")

SAVED = "folder\r\nD:PAI(A;OICI;FA;;;SY)\r\nfolder\\a b.txt\r\nD:AI(A;ID;FA;;;SY)\r\n"
CSV = '#TYPE Selected\r\n"Path";"Sddl"\r\n"Microsoft.PowerShell.Core\\FileSystem::C:\\x";"O:SYD:(A;;FA;;;WD)"\r\n'


def hexed(data: bytes, width: int = 9) -> str:
    """Bytes as a registry file has them, on lines of so many."""
    rows = [data[at : at + width] for at in range(0, len(data), width)]
    return ",\\\r\n  ".join(row.hex(",") for row in rows)


class Lines(Case):
    def lines(self, *words: str | Path, status: int = 0) -> list[str]:
        """The lines that are written of sources."""
        self.runs(status, "lines", *words, "lines")
        return (self.room / "lines").read_text().split("\n")[:-1]

    def test_icacls(self) -> None:
        wanted = ["folder\tD:PAI(A;OICI;FA;;;SY)", "folder\\a b.txt\tD:AI(A;ID;FA;;;SY)"]
        self.assertEqual(self.lines(self.write("saved", SAVED, "utf-16")), wanted)

    def test_csv(self) -> None:
        wanted = ["Microsoft.PowerShell.Core\\FileSystem::C:\\x\tO:SYD:(A;;FA;;;WD)"]
        self.assertEqual(self.lines(self.write("csv", CSV)), wanted)
        other = self.write("other", "Name,Text\na,O:SY\nb,\n")
        self.assertEqual(self.lines("--columns", "name,text", other, status=4), ["a\tO:SY"])

    def test_registry(self) -> None:
        text = (
            "Windows Registry Editor Version 5.00\r\n\r\n[HKEY_LOCAL_MACHINE\\S]\r\n"
            f'"Security"=hex:{hexed(PROTECTED)}\r\n"Start"=dword:00000002\r\n"A\\"b"="C:\\\\x"\r\n'
            f'"Flags"=hex:01,00,04,10\r\n\r\n[HKEY_LOCAL_MACHINE\\T]\r\n@=hex(3):{hexed(SYSTEM)}\r\n'
        )
        wanted = ["HKEY_LOCAL_MACHINE\\S\\Security\tD:P", "HKEY_LOCAL_MACHINE\\T\tO:SY"]
        self.assertEqual(self.lines(self.write("reg", text, "utf-16")), wanted)

    def test_a_descriptor_without_a_text_is_named(self) -> None:
        text = f'REGEDIT4\n[K]\n"a"=hex:{hexed(BROKEN)}\n"b"=hex:{hexed(SYSTEM)}\n"c"=hex:01,00,04,80\n'
        self.write("reg", text)
        rows = self.runs(4, "lines", "reg", "lines", says="1 descriptor in lines; left out: 2")
        self.assertEqual((self.room / "lines").read_text(), "K\\b\tO:SY\n")
        left = [row.split("\t")[:4] for row in rows]
        self.assertEqual(left, [["left", "reg", "3", "K\\a"], ["left", "reg", "10", "K\\c"]])

    def test_ldif(self) -> None:
        encoded = base64.b64encode(PROTECTED).decode()
        acting = base64.b64encode(SYSTEM).decode()
        text = (
            f"# record 1\ndn: CN=a,DC=x\nnTSecurityDescriptor:: {encoded[:20]}\n {encoded[20:]}\ncn: a\n"
            f"msDS-AllowedToActOnBehalfOfOtherIdentity:: {acting}\n\ndn: CN=b,DC=x\ncn: b\n\n"
            "dn: CN=c,DC=x\nnTSecurityDescriptor: O:BAD:(OA;;CR;;;AU)\n"
        )
        wanted = [
            "CN=a,DC=x\tD:P",
            "CN=a,DC=x msds-allowedtoactonbehalfofotheridentity\tO:SY",
            "CN=c,DC=x\tO:BAD:(OA;;CR;;;AU)",
        ]
        self.assertEqual(self.lines(self.write("ldif", text), status=4), wanted)

    def test_sddl(self) -> None:
        text = "\r\nD:(A;;CCLCSWLOCRRC;;;IU)S:(AU;FA;FA;;;WD)\r\n"
        self.write("sc", text)
        self.assertEqual(self.lines("sc"), ["sc:2\tD:(A;;CCLCSWLOCRRC;;;IU)S:(AU;FA;FA;;;WD)"])

    def test_refusals(self) -> None:
        refused = {
            "a path without a descriptor": "folder\r\n",
            "a tab in a path": "fol\tder\nD:P\n",
            "a descriptor twice on a line": "O:SY\tO:BA\n",
            "nothing": "\n\n",
            "a value without an end": 'REGEDIT4\n[K]\n"a=hex:01\n',
            "a CSV without keys": "Sddl,Name\nO:SY,a\n",
            "LDIF of changes": "dn: CN=a\nchangetype: modify\nnTSecurityDescriptor: O:SY\n",
            "LDIF that ended early": "dn: CN=a\nnTSecurityDescriptor: O:SY\n\nsearch: 2\nresult: 4 Size limit exceeded\n",
        }
        for what, text in refused.items():
            with self.subTest(what):
                self.write("refused", text)
                self.runs(2, "lines", "refused", "lines")
                self.assertFalse((self.room / "lines").exists())
        self.write("sddl", "O:SY\n")
        self.runs(2, "lines", "--columns", "a", "sddl", "lines")

    def test_a_source_is_not_replaced(self) -> None:
        """As where FILE is forgotten; but a file of lines is."""
        self.write("saved", SAVED)
        self.write("sddl", "O:SY\n")
        self.runs(1, "lines", "sddl", "saved")
        self.assertEqual((self.room / "saved").read_bytes(), SAVED.encode())
        self.assertEqual(self.lines("sddl"), self.lines("sddl"))

    @needs_program
    def test_each_takes_them(self) -> None:
        self.lines(self.write("saved", SAVED, "utf-16"))
        command = [SDSTORE, "each", "--key", "verdict", "S-1-5-18", "FA"]
        with open(self.room / "lines", "rb") as lines:
            done = subprocess.run(command, stdin=lines, capture_output=True, text=True, check=True)
        self.assertEqual(done.stdout, "folder\tgranted 0x1f01ff\nfolder\\a b.txt\tgranted 0x1f01ff\n")
