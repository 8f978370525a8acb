"""The report, in headless Chromium."""

import unittest

import chromium
from rig import HERE, TOP, Case, needs_program
from names import WELL_KNOWN

USER = "S-1-5-21-1-2-3-1001"
OTHER = "S-1-5-21-1-2-3-1002"
INHERITED = f"(A;OICIID;FA;;;BA)(A;OICIID;0x1200a9;;;{USER})"
HEAD = f"open 1 O:BAG:SYD:P(A;OICI;FA;;;BA)(A;OICI;0x1200a9;;;{USER})\n"
SCRIPT = f"""\
{HEAD}import container /%3Cb%3E%0A O:BAG:SYD:(D;OICI;FW;;;{OTHER})(D;OICI;FW;;;{OTHER}){INHERITED}
import container /%3Cb%3E%0A/in O:BAG:SYD:P(A;;FR;;;BU)
# files	/%3Cb%3E%0A/in	1204
# skipped	/odd%0A	its descriptor isn't supported	2
import container /%3Cb%3E%0A/none O:{OTHER}G:SYD:NO_ACCESS_CONTROL
import container /plain O:BAG:SYD:{INHERITED}
import object /plain/file O:BAG:SYD:(A;ID;FA;;;BA)(A;ID;0x1200a9;;;{USER})
# differs	/plain/file	it inherits otherwise than its folder passes down
# rows	3
publish
"""
#: What hinders somebody on a page.
FAULTS = (HERE / "accessible.js").read_text("utf-8")
#: Seconds of a processor until a report of 20,000 folders can be used. (Seconds of a clock depend on what else runs.)
SECONDS = 1.0
FOLDERS = 20_000


@needs_program
@unittest.skipUnless(chromium.found(), "the package chromium is required")
class Report(Case):
    def page(self, script: str, *words: str) -> chromium.Page:
        self.write("script", script)
        self.runs(4 if "# files" in script else 0, "report", *words, "script", "report.html")
        page = chromium.Page(self.room / "report.html")
        self.addCleanup(page.__exit__)
        return page

    def small(self) -> chromium.Page:
        self.write("names", f'{USER} CORP\\alice\n{OTHER} CORP\\</script><img src=x onerror="alert(1)">\n')
        return self.page(SCRIPT, "--names", "names", "--title", "</title><b>")

    def items(self, page: chromium.Page) -> list[str]:
        return list(page.value("shown().map((item) => item.querySelector('.row').innerText)"))

    def to_tree(self, page: chromium.Page) -> None:
        """Presses Tab until an item of the tree has the focus."""
        for _ in range(20):
            page.key("Tab")
            if page.value("document.activeElement.getAttribute('role')") == "treeitem":
                return
        self.fail("no Tab leads to the tree")

    def focused(self, page: chromium.Page) -> str:
        return str(page.value("document.activeElement.querySelector('.name').textContent"))

    def test_texts_from_outside(self) -> None:
        """Names and titles are texts and nothing else, and nothing is loaded."""
        page = self.small()
        self.assertEqual(page.value("document.title"), "</title><b>")
        self.assertEqual(page.value("document.querySelectorAll('img, link, iframe, script[src]').length"), 0)
        page.value("document.getElementById('words').value = 'onerror'; search()")
        self.assertEqual(page.value("document.getElementById('results-title').textContent"), "2 found")
        self.assertEqual(page.faults(), [])

    def test_the_tree_by_keys(self) -> None:
        page = self.small()
        self.to_tree(page)
        self.assertEqual(self.focused(page), "/")
        self.assertEqual(len(self.items(page)), 3)
        page.key("ArrowDown", "ArrowRight", "ArrowRight")
        self.assertEqual(self.focused(page), "in")
        page.key("Enter")
        self.assertEqual(page.value("document.getElementById('node-title').textContent"), "/<b>\\n/in")
        page.key("ArrowLeft", "ArrowLeft")
        self.assertEqual(len(self.items(page)), 3)
        page.key("End", "ArrowRight")
        self.assertEqual(self.items(page)[-1].split("\n")[0], "file")
        page.key("Home")
        self.assertEqual(self.focused(page), "/")
        self.assertEqual(page.value("tree.querySelectorAll('[tabindex=\"0\"]').length"), 1)

    def test_what_a_node_shows(self) -> None:
        page = self.small()
        self.to_tree(page)
        page.key("ArrowDown", "ArrowRight", "Enter")
        marks = [text.split("\n")[1:] for text in self.items(page)]
        self.assertEqual(
            marks,
            [
                ["inheritance blocked", "1 node at risk below"],
                ["own entries", "2 to tidy up", "1 node at risk below"],
                ["inheritance blocked", "1,204 files"],
                ["no DACL: everything is granted"],
                [],
            ],
        )
        self.assertEqual(
            self.rows(page, "#details table:first-of-type"),
            [
                "Read\tBUILTIN\\Administrators\nCORP\\alice",
                'Write\tBUILTIN\\Administrators unless in CORP\\</script><img src=x onerror="alert(1)">',
                "Change permissions\tBUILTIN\\Administrators as the owner",
            ],
        )
        rows = self.rows(page, "#details table:last-of-type")
        self.assertIn("Deny", rows[1])
        self.assertIn("write\tthis, folders and files\town", rows[1])
        self.assertEqual(
            rows[4].split("\t"),
            ["Allow", f"CORP\\alice\n{USER}\n", "read and execute", "this, folders and files", "inherited"],
        )
        self.assertIn("repeats entry 1", page.value("document.querySelector('#details > ul').innerText"))

    def rows(self, page: chromium.Page, table: str) -> list[str]:
        texts = page.value(f"[...document.querySelectorAll('{table} tr')].map((row) => row.innerText.trim())")
        # (a cell that begins with a list begins with a line feed)
        return [text.replace("\t\n", "\t") for text in texts]

    def test_what_is_left_out(self) -> None:
        """Above both pages, with links to the nodes that are there, which have a mark."""
        page = self.small()
        self.assertEqual(
            page.value("document.getElementById('sum').innerText"),
            "5 folders, 1 file: of 1,213 nodes 5 answered; 1,208 can't be: 1 that the source has otherwise, "
            "3 that couldn't be read, 1,204 files without a line",
        )
        page.value("document.getElementById('left-out').open = true")
        self.assertEqual(
            page.value("[...document.querySelectorAll('#left-out p')].map((one) => one.textContent)"),
            [
                "/odd%0A: not read, and 2 nodes below: its descriptor isn't supported",
                "/plain/file: another list: it inherits otherwise than its folder passes down",
            ],
        )
        page.value("document.querySelector('#left-out button').click()")
        self.assertEqual(self.focused(page), "file")
        self.assertEqual(self.items(page)[-1], "file\nanother list in the source")
        self.assertIn("What is here is the tree's.", page.value("document.getElementById('details').innerText"))
        whole = SCRIPT.partition("# files")[0] + "# rows\t0\npublish\n"
        self.assertTrue(self.page(whole).value("document.getElementById('left-out').hidden"))
        self.assertEqual(page.faults(), [])

    def test_what_changes_grant_and_take_away(self) -> None:
        """The second page has each node on which somebody gains or loses rights; without changes there is none."""
        self.assertTrue(self.small().value("document.getElementById('pages').hidden"))
        change = f"dacl /plain D:(D;OICI;0x2;;;{OTHER})(A;OICI;0x1200a9;;;BU)\nprotect /%3Cb%3E%0A\npublish\n"
        page = self.page(SCRIPT + change, "--names", "names")
        page.value("document.getElementById('to-changes').click()")
        self.assertEqual(
            page.value("document.getElementById('changes-sum').innerText"),
            "3 nodes have another descriptor; on 2 of them somebody gains or loses rights.",
        )
        other = 'CORP\\</script><img src=x onerror="alert(1)">'
        self.assertEqual(
            page.value("[...document.querySelectorAll('#changes summary')].map((one) => one.innerText)"),
            [
                "A user who is BUILTIN\\Users gains read and execute on 2 nodes",
                f"A user who is BUILTIN\\Administrators and {other} (for denies alone) loses write or add files on 2 nodes",
            ],
        )
        page.value("document.querySelector('#changes summary').click()")
        links = page.value("[...document.querySelectorAll('#changes [open] button')].map((one) => one.innerText)")
        self.assertEqual(links, ["/plain", "/plain/file"])
        page.value("document.querySelectorAll('#changes [open] button')[1].click()")
        self.assertEqual(self.focused(page), "file")
        self.assertEqual(
            self.rows(page, "#details table:first-of-type"),
            [
                "Change\tRights\tFor example a user who is",
                "Gained\tread and execute\tBUILTIN\\Users",
                f"Lost\twrite or add files\tBUILTIN\\Administrators and {other} (for denies alone)",
            ],
        )
        self.assertEqual(page.faults(), [])

    def test_the_search(self) -> None:
        """By name, SID and path; a SID is found where it has entries or owns, not where they are inherited."""
        page = self.small()
        for words, found in (("alice", ["/"]), (OTHER, ["/<b>\\n", "/<b>\\n/none"]), ("PLAIN/", ["/plain/file"])):
            page.value(f"document.getElementById('words').value = {words!r}; search()")
            self.assertEqual(self.found(page), found)
        page.value("document.querySelector('#found button').click()")
        self.assertEqual(self.focused(page), "file")

    def test_whom_a_right_is_granted_to(self) -> None:
        """By the names that the lines of `sdstore who` have, and the page says so: a group's members aren't found."""
        page = self.small()
        for words, right, found in (
            ("alice", 0, ["/", "/<b>\\n", "/plain", "/plain/file"]),
            ("alice", 1, []),
            ("everyone", 1, ["/<b>\\n/none"]),
        ):
            page.value(f"document.getElementById('right').value = {right}")
            page.value(f"document.getElementById('words').value = {words!r}; search()")
            self.assertEqual(self.found(page), found)
            self.assertFalse(page.value("document.getElementById('direct').hidden"))

    def found(self, page: chromium.Page) -> list[str]:
        return list(page.value("[...document.querySelectorAll('#found button')].map((one) => one.textContent)"))

    def test_the_summary(self) -> None:
        """When and of what it was made, and how many nodes are of each kind; a press lists them, another one doesn't."""
        page = self.small()
        made = page.value("document.getElementById('made').textContent")
        self.assertRegex(made, r"\AMade \d{4}-\d\d-\d\d \d\d:\d\d UTC of script\Z")
        self.assertEqual(
            page.value("[...document.querySelectorAll('#kinds button')].map((one) => one.textContent)"),
            [
                "1 without a DACL",
                "0 open to many",
                "1 with another list in the source",
                "0 with doubtful entries",
                "0 with accounts that have no name",
                "2 with blocked inheritance",
                "1 with entries of their own",
                "1 to tidy up",
            ],
        )
        press = "document.querySelector('#kinds [data-kind=blocked]').click()"
        page.value(press)
        self.assertEqual(self.found(page), ["/", "/<b>\\n/in"])
        page.value(press)
        self.assertTrue(page.value("document.getElementById('results').hidden"))
        self.assertEqual(page.faults(), [])

    def test_risks_and_unknown_accounts(self) -> None:
        """An account of a domain without a name is counted only where names are given; a risk also in the folders above."""
        script = f"""\
open 1 O:BAG:SYD:P(A;OICI;FA;;;BA)
import container /a O:BAG:SYD:(A;OICIID;FA;;;BA)
import container /a/b O:BAG:SYD:(A;OICI;0x1301bf;;;AU)(A;OICI;FR;;;{USER})(A;OICIID;FA;;;BA)
# rows	0
publish
"""
        self.write("names", f"{OTHER} CORP\\other\n")
        page = self.page(script, "--names", "names")
        page.value("setOpen(items.get(1), true)")
        self.assertEqual(
            [text.split("\n")[1:] for text in self.items(page)],
            [
                ["inheritance blocked", "1 node at risk below"],
                ["1 node at risk below"],
                ["6 risks", "unknown account", "own entries"],
            ],
        )
        self.assertNotIn("no name", self.page(script).value("document.getElementById('kinds').textContent"))

    def test_a_narrow_window_and_paper(self) -> None:
        page = self.small()
        page.ask("Emulation.setDeviceMetricsOverride", width=400, height=800, deviceScaleFactor=1, mobile=True)
        page.value("document.getElementById('left-out').open = true; setOpen(items.get(1), true)")
        self.assertLessEqual(page.value("document.documentElement.scrollWidth"), 400)
        page.ask("Emulation.setEmulatedMedia", media="print")
        self.assertEqual(page.value("getComputedStyle(document.getElementById('search')).display"), "none")

    def test_what_is_read_aloud(self) -> None:
        """The browser's own tree for screen readers has names and levels of items, and of fields."""
        page = self.small()
        nodes = page.ask("Accessibility.getFullAXTree")["nodes"]
        said = {(node["role"]["value"], node.get("name", {}).get("value", "")) for node in nodes if not node["ignored"]}
        for wanted in (
            ("tree", "Folders"),
            ("treeitem", "/, inheritance blocked, 1 node at risk below"),
            ("treeitem", "<b>\\n, own entries, 2 to tidy up, 1 node at risk below"),
            ("searchbox", "Search"),
            ("combobox", "Where to search"),
            ("button", "1 without a DACL"),
            ("columnheader", "Rights"),
            ("heading", "/"),
        ):
            self.assertIn(wanted, said)

    def test_what_hinders(self) -> None:
        """Nothing, by accessible.js: by keyboard, by a screen reader or on a small screen. It finds what is planted."""
        self.write("names", f"{USER} CORP\\alice\n")
        self.write("accounts", f"user {USER} CORP\\alice\nuser {OTHER} CORP\\{'bob' * 40}\n")
        change = f"dacl /plain D:(D;OICI;0x2;;;{OTHER})(A;OICI;0x1200a9;;;BU)\npublish\n"
        page = self.page(SCRIPT + change, "--names", "names", "--accounts", "accounts")
        for width in (1280, 400):
            size = {"width": width, "height": 800, "deviceScaleFactor": 1, "mobile": width < 800}
            page.ask("Emulation.setDeviceMetricsOverride", **size)
            for step in (
                "document.getElementById('left-out').open = true; setOpen(items.get(1), true)",
                "choose([...items.values()].at(-1))",
                "document.getElementById('words').value = 'alice'; search()",
                "document.querySelector('#kinds [data-kind=blocked]').click()",
                "document.getElementById('to-changes').click()",
                "document.getElementById('to-folders').click()",
            ):
                page.value(step)
                with self.subTest(f"{width}: {step}"):
                    self.assertEqual(page.value(FAULTS), [])
        page.value("document.querySelector('h1').remove(); document.getElementById('words').tabIndex = 3")
        rules = [fault.split(" ")[0] for fault in page.value(FAULTS)]
        self.assertEqual(rules, ["2.4.3", "1.3.1"])

    def test_the_pages(self) -> None:
        """On that of the changes nothing else is shown."""
        self.write("accounts", f"user {USER} CORP\\alice\n")
        page = self.page(SCRIPT + "dacl /plain D:P\npublish\n", "--accounts", "accounts")
        shown = "[...document.querySelectorAll('main > *')].filter((one) => !one.hidden).map((one) => one.id)"
        self.assertEqual(page.value(shown), ["people", "folders-page"])
        page.value("document.getElementById('to-changes').click()")
        self.assertEqual(page.value(shown), ["changes-page"])
        page.value("document.getElementById('to-folders').click()")
        self.assertEqual(page.value(shown), ["people", "folders-page"])

    def test_contrast(self) -> None:
        """Each colour of text has a contrast of 4.5 or more on the panel and the page, in both themes (WCAG 2, AA)."""
        page = self.small()
        for theme in ("light", "dark"):
            page.theme(theme)
            for text in ("--text", "--soft", "--deny", "--own", "--warn"):
                for ground in ("--page", "--panel", "--chosen"):
                    self.assertGreaterEqual(
                        contrast(*(self.colour(page, name) for name in (text, ground))), 4.5, (theme, text, ground)
                    )

    def colour(self, page: chromium.Page, name: str) -> str:
        return str(page.value(f"getComputedStyle(document.documentElement).getPropertyValue({name!r})")).strip()

    def test_twenty_thousand_folders(self) -> None:
        lines = [f"import container /d{at} O:BAG:SYD:{INHERITED}\n" for at in range(200)]
        lines += [f"import container /d{at % 200}/n{at} O:BAG:SYD:{INHERITED}\n" for at in range(FOLDERS - 201)]
        page = self.page(HEAD + "".join(lines) + "# rows\t0\npublish\n")
        self.assertEqual(page.value("nodes.length"), FOLDERS)
        seconds = page.processor_seconds()
        ready = page.value("document.documentElement.dataset.ready")
        print(f"a report of {FOLDERS:,} folders opens in {ready} ms, with {seconds:.2f} s of a processor")
        self.assertLess(seconds, SECONDS)


class Names(unittest.TestCase):
    def test_what_windows_has_everywhere(self) -> None:
        """The names that need no file are those of the program."""
        table = (TOP / "crates/sd_named/src/well_known.rt").read_text("utf-8").replace("\\\\", "\\")
        rows = (line.split(" ", 2) for line in table.splitlines() if line.startswith(("group ", "user ")))
        self.assertEqual(WELL_KNOWN, {sid: name for _, sid, name in rows})


def contrast(*colours: str) -> float:
    """The ratio of contrast of two colours as #rrggbb, by WCAG 2."""
    lights = []
    for colour in colours:
        parts = [int(colour[at : at + 2], 16) / 255 for at in (1, 3, 5)]
        parts = [part / 12.92 if part <= 0.04045 else ((part + 0.055) / 1.055) ** 2.4 for part in parts]
        lights.append(0.2126 * parts[0] + 0.7152 * parts[1] + 0.0722 * parts[2])
    return (max(lights) + 0.05) / (min(lights) + 0.05)
