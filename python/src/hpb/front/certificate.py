"""The certificate of a front: the context of TLS, and when it ends (docs/FRONT.md)."""
import contextlib
import os
import re
import ssl
import time
from calendar import timegm
from collections.abc import Iterator
from dataclasses import dataclass, field

from hpb.front.faults import Wrong
from hpb.front.tokens import read_private
from hpb.own_files import read_regular

DAY_SECONDS = 86_400
# Warnings begin so many days before the certificate ends. Its end is looked at once in so many seconds.
WARN_DAYS = 14
LOOK_SECONDS = DAY_SECONDS
BEGIN, END = "-----BEGIN CERTIFICATE-----", "-----END CERTIFICATE-----"
# Client and server have so many turns in a handshake, at most.
HANDSHAKE_TURNS = 4
# The kinds of values in a certificate (ASN.1, DER) that are looked at.
SEQUENCE, VERSION, UTC_TIME, GENERAL_TIME = 0x30, 0xA0, 0x17, 0x18
# A year of two digits is one of 1950 to 2049.
FIRST_SHORT_YEAR = 50


@dataclass(frozen=True)
class Certificate:
    """The files of a certificate and its key, as they were when they were read."""

    context: ssl.SSLContext
    ends: float
    chain: bytes
    key: bytes = field(repr=False)

    @classmethod
    def read(cls, certificate: str, key: str | None) -> "Certificate":
        """A key that others may read is refused, as is one that isn't the certificate's."""
        private = read_private(key or certificate).encode()
        try:
            return cls.of(read_regular(certificate) if key else private, private)
        except (OSError, ValueError) as fault:
            raise Wrong(f"certificate: {fault}") from None

    @classmethod
    def of(cls, chain: bytes, key: bytes) -> "Certificate":
        """Takes the texts of the PEM files. If they can't be used, an OSError or a ValueError says why."""
        context = ssl.SSLContext(ssl.PROTOCOL_TLS_SERVER)
        context.minimum_version = ssl.TLSVersion.TLSv1_2
        with path_of(chain) as chain_path, path_of(key) as key_path:
            context.load_cert_chain(chain_path, key_path, password=no_password)
        try_out(context)
        return cls(context, end_of(chain.decode("ascii", errors="replace")), chain, key)

    def says(self, now: float) -> str:
        """A warning for the operator at this time, or an empty text if there is nothing to warn about."""
        when = time.strftime("%Y-%m-%d %H:%M:%S UTC", time.gmtime(self.ends))
        if now >= self.ends:
            return f"error: the certificate ended at {when}: clients refuse it. Put a new one in its place, and send SIGHUP"
        if (days := (self.ends - now) / DAY_SECONDS) <= WARN_DAYS:
            return f"warning: the certificate ends at {when}, in {days:.0f} days. Put a new one in its place, and send SIGHUP"
        return ""


def try_out(context: ssl.SSLContext) -> None:
    """Makes a handshake with a client of its own. If that can't be done, an OSError says why. OpenSSL passes over an algorithm for which it gets
    no memory, and no client could connect then."""
    client = ssl.SSLContext(ssl.PROTOCOL_TLS_CLIENT)
    client.check_hostname, client.verify_mode = False, ssl.CERT_NONE
    to_server, to_client = ssl.MemoryBIO(), ssl.MemoryBIO()
    ends = client.wrap_bio(to_client, to_server), context.wrap_bio(to_server, to_client, server_side=True)
    waits = True
    for one in ends * HANDSHAKE_TURNS:
        try:
            one.do_handshake()
            waits = False
        except ssl.SSLWantReadError:
            waits = True
    if waits:
        raise OSError("no client can make a handshake with it")


@contextlib.contextmanager
def path_of(data: bytes) -> Iterator[str]:
    """A path of a file in memory that has this, for as long as it is asked for."""
    file = os.memfd_create("certificate")
    try:
        with open(file, "wb", closefd=False) as out:
            out.write(data)
        yield f"/proc/self/fd/{file}"
    finally:
        os.close(file)


def no_password() -> str:
    """OpenSSL asks for a password if the key has one: nobody is there to type it."""
    raise ValueError("the key has a password: write it without one")


def end_of(text: str) -> float:
    """When the first certificate of a file of PEM ends, in seconds since 1970."""
    found = re.search(f"{BEGIN}.*?{END}", text, re.DOTALL)
    if not found:
        raise ValueError("the file has no certificate")
    try:
        return end_in(ssl.PEM_cert_to_DER_cert(found[0]))
    except (IndexError, UnicodeDecodeError):
        raise ValueError("the certificate can't be read") from None


def end_in(data: bytes) -> float:
    """Its place follows from RFC 5280: in the certificate's signed part, after version, serial number, algorithm and issuer."""
    signed = values_of(values_of(data)[0][1])[0][1]
    fields = values_of(signed)
    place = 4 if fields[0][0] == VERSION else 3
    kind, until = values_of(fields[place][1])[1]
    return seconds_of(kind, until.decode("ascii"))


def values_of(data: bytes) -> list[tuple[int, bytes]]:
    """The values that stand one behind the other: the kind of each, and its content."""
    values, at = [], 0
    while at < len(data):
        kind, length, at = data[at], data[at + 1], at + 2
        if length & 0x80:
            count = length & 0x7F
            length, at = int.from_bytes(data[at : at + count], "big"), at + count
        values.append((kind, data[at : at + length]))
        at += length
    return values


def seconds_of(kind: int, text: str) -> float:
    if kind not in (UTC_TIME, GENERAL_TIME):
        raise ValueError("the certificate has no end")
    if kind == UTC_TIME:
        text = ("19" if int(text[:2]) >= FIRST_SHORT_YEAR else "20") + text
    return float(timegm(time.strptime(text, "%Y%m%d%H%M%SZ")))
