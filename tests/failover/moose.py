"""A second engine: MooseFS, whose copies lie on the three machines, while its one master is on that of the bidders."""

from __future__ import annotations

import hashlib
from dataclasses import dataclass
from pathlib import Path

from failover.cluster import AUCTIONS, BIDDERS, KEEPERS, NAMES, until
from failover.volume import Volume

OWNER = "WORKING_USER = root\nWORKING_GROUP = root\nDATA_PATH = /var/lib/mfs\n"
# A machine that is gone keeps its locks until its session is given up: a day, if nothing is said, and 60 seconds at least.
SESSION_SECONDS = 60
MASTER = f"{OWNER}EXPORTS_FILENAME = /etc/mfs/mfsexports.cfg\nSESSION_SUSTAIN_TIME = {SESSION_SECONDS}\n"
KEEPER = f"{OWNER}MASTER_HOST = {NAMES[BIDDERS]}\nMASTER_TIMEOUT = 10\nHDD_LEAVE_SPACE_DEFAULT = 1MiB\nHDD_CONF_FILENAME = /etc/mfs/mfshdd.cfg\n"
# Nothing is read from a machine's own memory, and a write is tried again three times at most.
MOUNTED = "mfscachemode=NEVER,mfsattrcacheto=0,mfsentrycacheto=0,mfsdirentrycacheto=0,mfsioretries=3"
# A chunk has 64 MiB, and a disk has to have room for some.
DISK_MIB = 400


@dataclass
class Moose(Volume):
    """A MooseFS with three copies of each file."""

    def make(self) -> None:
        master = self.cluster.machines[BIDDERS]
        for path, text in {"/etc/mfs/mfsmaster.cfg": MASTER, "/etc/mfs/mfsexports.cfg": "* / rw,alldirs,maproot=0:0\n", "/var/lib/mfs/metadata.mfs": "MFSM NEW"}.items():
            master.run("sh", "-c", f"mkdir -p {Path(path).parent} && cat > {path}", input=text)
        master.run("mfsmaster", "-c", "/etc/mfs/mfsmaster.cfg", "start")
        self.start_daemons(KEEPERS)
        self.mount(KEEPERS)
        self.cluster.machines[1].run("mfssetgoal", "-r", str(len(KEEPERS)), str(AUCTIONS))

    def start_daemon(self, number: int) -> None:
        machine = self.cluster.machines[number]
        for path, text in {"/etc/mfs/mfschunkserver.cfg": KEEPER, "/etc/mfs/mfshdd.cfg": "/srv/disk/mfs\n"}.items():
            machine.run("sh", "-c", f"mkdir -p /etc/mfs /var/lib/mfs /srv/disk/mfs && cat > {path}", input=text)
        machine.run("mfschunkserver", "-c", "/etc/mfs/mfschunkserver.cfg", "start")

    def mount_on(self, number: int) -> None:
        machine = self.cluster.machines[number]
        until(lambda: machine.ran("mfsmount", str(AUCTIONS), "-H", NAMES[BIDDERS], "-o", MOUNTED).returncode == 0, "MooseFS is mounted")

    def is_whole(self) -> bool:
        ran = self.cluster.machines[1].ran("sh", "-c", f"find {AUCTIONS} -type f -size +0 | xargs mfscheckfile")
        rows = [line.split(":")[0].strip() for line in ran.stdout.splitlines() if "chunks" in line]
        return ran.returncode == 0 and set(rows) == {f"chunks with {len(KEEPERS)} copies"}

    def copies(self, file: Path) -> set[str]:
        """What each machine reads: which of the copies, the engine says."""
        read = (self.cluster.machines[number].run("sha256sum", str(AUCTIONS / file)) for number in KEEPERS)
        return {hashlib.sha256(text.encode()).hexdigest() for text in read}

