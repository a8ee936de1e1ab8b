"""Starts and stops fronts: by units, if systemd runs the auctions of /var/lib/hpb, and else by itself."""
import contextlib
import os
import pathlib
import signal
import socket
import subprocess
import sys
import tempfile
import time

from hpb.auctions.folder import STANDARD, Auction, CantDo
from hpb.front.manager import READY, SOCKET
from hpb.own_files import open_own

SYSTEMD = pathlib.Path("/run/systemd/system")
DROP_INS = pathlib.Path("/etc/systemd/system")
# Seconds until a front has to be ready, and to have ended.
START_SECONDS, STOP_SECONDS = 120.0, 15.0
LOOK_SECONDS = 0.1
# The files of a front that was started without systemd: its number, and its words.
PROCESS, SAID = "front.pid", "front.said"
MOST_SAID = 2_000


def by_units(auction: Auction) -> bool:
    """Whether this auction is run by systemd's units."""
    return SYSTEMD.is_dir() and auction.folder.parent == pathlib.Path(STANDARD)


def start(auction: Auction) -> None:
    """Starts the front, and returns once clients are let in."""
    if auction.is_served():
        raise CantDo(f"{auction.name} runs already")
    if by_units(auction):
        write_addresses(auction)
        control("daemon-reload")
        control("enable", "--quiet", "--now", *units(auction))
    else:
        start_alone(auction)


def stop(auction: Auction) -> None:
    """Stops the front, and returns once it has ended."""
    if by_units(auction):
        control("disable", "--quiet", "--now", *units(auction))
    elif auction.is_served():
        stop_alone(auction)
    else:
        raise CantDo(f"{auction.name} doesn't run")


def units(auction: Auction) -> list[str]:
    return [f"hpb-front@{auction.name}.socket", f"hpb-front@{auction.name}.service"]


def write_addresses(auction: Auction) -> None:
    """Gives the socket unit the addresses of the configuration."""
    folder = DROP_INS / f"{units(auction)[0]}.d"
    lines = ["[Socket]", "ListenStream=", *(f"ListenStream={address}" for address in auction.addresses())]
    try:
        folder.mkdir(exist_ok=True)
        (folder / "addresses.conf").write_text("\n".join(lines) + "\n", encoding="utf-8")
    except OSError as fault:
        raise CantDo(f"{fault.filename}: {fault.strerror}") from None


def control(*words: str) -> None:
    try:
        ran = subprocess.run(["systemctl", *words], capture_output=True, encoding="utf-8", errors="backslashreplace", check=False)
    except OSError as fault:
        raise CantDo(f"systemctl can't be started: {fault.strerror}") from None
    if ran.returncode:
        raise CantDo(f"systemctl {words[0]}: {ran.stderr.strip() or ran.stdout.strip()}")


# Without systemd.


def start_alone(auction: Auction) -> None:
    """Starts a front that goes on when this command ends. Its words go into a file of the auction's folder."""
    try:
        said = open_own(str(auction.folder / SAID), os.O_WRONLY | os.O_APPEND)
    except OSError as fault:
        raise CantDo(f"{auction.folder / SAID}: {fault.strerror}") from None
    begun = os.fstat(said).st_size
    with tempfile.TemporaryDirectory(prefix="hpb-auction-") as room, socket.socket(socket.AF_UNIX, socket.SOCK_DGRAM) as letters:
        letters.bind(f"{room}/notify")
        letters.settimeout(LOOK_SECONDS)
        process = subprocess.Popen(
            [sys.executable, "-P", "-m", "hpb.commands.front", "--config", str(auction.configuration)], stdin=subprocess.DEVNULL, stdout=said,
            stderr=said, start_new_session=True, env={**os.environ, SOCKET: f"{room}/notify"},
        )
        (auction.folder / PROCESS).write_text(f"{process.pid}\n", encoding="ascii")
        os.close(said)
        end = time.monotonic() + START_SECONDS
        while process.poll() is None and time.monotonic() < end:
            with contextlib.suppress(TimeoutError):
                if letters.recv(MOST_SAID) == READY.encode():
                    return
    process.terminate()
    with (auction.folder / SAID).open(encoding="utf-8", errors="backslashreplace") as file:
        file.seek(begun)
        words = " ".join(line.removeprefix("front: ").strip() for line in file if line.startswith("front: "))
    raise CantDo(f"{auction.name}: its front isn't ready: {words[:MOST_SAID] or f'see {auction.folder / SAID}'}")


def stop_alone(auction: Auction) -> None:
    try:
        number = int((auction.folder / PROCESS).read_text(encoding="ascii"))
        process = os.pidfd_open(number)
    except (OSError, ValueError):
        raise CantDo(f"{auction.name}: its front wasn't started by this command: stop it as it was started") from None
    try:
        # The number may be another process's by now.
        words = pathlib.Path(f"/proc/{number}/cmdline").read_bytes().split(b"\0")
        if os.fsencode(auction.configuration) not in words:
            raise CantDo(f"{auction.name}: its front wasn't started by this command: stop it as it was started")
        signal.pidfd_send_signal(process, signal.SIGTERM)
    except (FileNotFoundError, ProcessLookupError):
        pass
    finally:
        os.close(process)
    end = time.monotonic() + STOP_SECONDS
    while auction.is_served():
        if time.monotonic() > end:
            raise CantDo(f"{auction.name}: its front hasn't ended after {STOP_SECONDS:.0f} seconds")
        time.sleep(LOOK_SECONDS)
    with contextlib.suppress(OSError):
        os.unlink(auction.folder / PROCESS)
