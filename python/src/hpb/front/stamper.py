"""The process that gets stamps of RFC 3161: it stays in the machine's network, which the front leaves (docs/VERIFY.md).

    python3 -m hpb.front.stamper URL CERTIFICATES

Each line of standard input has a number, and in hexadecimal digits the bytes to be stamped. It is answered by `OK`, the number, the stamp's
time and its token in base64, or by `FAILED`, the number and why.
"""
import base64
import sys
import urllib.request
from pathlib import Path

from hpb.seals.openssl import query_for, reply_fault, time_in, token_in

_SECONDS = 30
_MOST_REPLY = 1_000_000


class NoStamp(Exception):
    """There is no stamp, for this reason."""


def reply_to(url: str, query: bytes) -> bytes:
    """An authority's reply to a query."""
    request = urllib.request.Request(url, query, {"Content-Type": "application/timestamp-query"})
    with urllib.request.urlopen(request, timeout=_SECONDS) as reply:
        data: bytes = reply.read(_MOST_REPLY)
    return data


def stamp_of(data: bytes, url: str, certificates: str) -> str:
    """The time and the token of a stamp, which is checked. A NoStamp says why there is none."""
    query = query_for(data)
    reply = reply_to(url, query)
    if fault := reply_fault(reply, query, Path(certificates).read_bytes()):
        raise NoStamp(f"the reply isn't right: {fault}")
    token = token_in(reply)
    return f"{time_in(token)} {base64.b64encode(token).decode()}"


def main() -> None:
    _, url, certificates = sys.argv
    for line in sys.stdin:
        number, data = line.split()
        try:
            said = f"OK {number} {stamp_of(bytes.fromhex(data), url, certificates)}"
        except Exception as fault:  # Whatever fails, the next try may not.
            said = f"FAILED {number} {' '.join(str(fault).split()) or type(fault).__name__}"
        print(said, flush=True)


if __name__ == "__main__":
    main()
