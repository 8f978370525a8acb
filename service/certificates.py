"""The certificates of a place to listen: its own, and the authority that signs those of its clients."""

import asyncio
import re
import ssl
from asyncio import constants, sslproto
from dataclasses import dataclass
from pathlib import Path

from config import Listen
from errors import Failed

_BLOCK = re.compile(rb"-----BEGIN [^-]+-----.*?-----END [^-]+-----", re.DOTALL)
#: The bytes of the buffer into which each connection receives, idle ones too, and of what it receives beyond what is
#: read: as many as a record of TLS has. asyncio's are 256 KiB each.
_BUFFER_BYTES = 1 << 14


@dataclass(frozen=True)
class Certificates:
    """What a handshake is made with, and the certificates of the authority."""

    context: ssl.SSLContext
    authority: frozenset[bytes]

    @classmethod
    def read(cls, listen: Listen) -> "Certificates":
        """Failed: a certificate isn't readable."""
        try:
            given = Path(listen.clients).read_bytes()
            _bound_buffers()
            context = _context(listen)
            if Path(listen.clients).read_bytes() != given:
                raise Failed(f"{listen.name}: its certificates: {listen.clients} is being written")
        except OSError as error:
            raise Failed(f"{listen.name}: its certificates: {error}") from error
        return cls(context, frozenset(_BLOCK.findall(given)))

    def accepts_all_of(self, other: "Certificates | None") -> bool:
        """Whether all clients that showed their certificates to the other one may do so here: the authority still has
        each certificate that it had. Who is no longer signed for can't be found without another handshake."""
        return other is not None and other.authority <= self.authority


def _bound_buffers() -> None:
    """asyncio has no parameter for this. Failed: in this Python it has other names, and so buffers of any size."""
    for where, name, size in (
        (sslproto.SSLProtocol, "max_size", _BUFFER_BYTES),
        (constants, "FLOW_CONTROL_HIGH_WATER_SSL_READ", _BUFFER_BYTES >> 10),
    ):
        if not isinstance(getattr(where, name, None), int):
            raise Failed(f"certificates: asyncio has no {name} here, which bounds the memory of a connection")
        setattr(where, name, size)


def _context(listen: Listen) -> ssl.SSLContext:
    """Both sides show certificates; nobody without one gets further than the handshake."""
    context = ssl.create_default_context(ssl.Purpose.CLIENT_AUTH, cafile=listen.clients)
    context.load_cert_chain(listen.certificate, listen.key)
    context.minimum_version = ssl.TLSVersion.TLSv1_2
    context.verify_mode = ssl.CERT_REQUIRED
    return context


def name_and_end(transport: asyncio.BaseTransport) -> tuple[str, float]:
    """The one common name of the client's certificate, which its authority has signed, and when that ends, in seconds
    since 1970. PermissionError: it hasn't one."""
    certificate = transport.get_extra_info("peercert") or {}
    names = [value for part in certificate.get("subject", ()) for name, value in part if name == "commonName"]
    if len(names) != 1:
        raise PermissionError("not allowed: the certificate hasn't one common name")
    return f"cn:{names[0]}", float(ssl.cert_time_to_seconds(certificate["notAfter"]))
