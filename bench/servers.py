"""Servers for the benchmarks, and the load that is put on them: hpb, Redis and PostgreSQL. Each listens at a free port of
127.0.0.1, and has its data in a folder of its own.
"""
import contextlib
import os
import pathlib
import pwd
import re
import shutil
import signal
import socket
import subprocess
import sys
import time

sys.dont_write_bytecode = True
from auctions import Auction
from layouts import LAYOUTS, add_layouts

HERE = pathlib.Path(__file__).resolve().parent
ADDRESS = "127.0.0.1"
PATIENCE = 60
# An auction accepts 1,000,000 commands at most, and some of these are closes.
MOST_ANSWERS = 950_000
TICKS = os.sysconf("SC_CLK_TCK")
PIPES = {"stdin": subprocess.PIPE, "stdout": subprocess.PIPE, "stderr": subprocess.PIPE, "text": True}
REDIS_KINDS = ["redis-incr", "redis-set", "redis-rpush"]
POSTGRES_KINDS = ["postgres", "postgres-prepared"]
# How many bids of a session may be in flight.
PIPELINES = [1, 4, 16]
# Neither of the two servers may, or wants to, be run by root.
UNPRIVILEGED = ["postgres", "nobody"]
# Takes a core as long as the process that started it is there.
NOISE = """
import os, sys
while os.getppid() == int(sys.argv[1]):
    for _ in range(100_000):
        pass
"""


class Fails(Exception):
    """A server didn't start, or didn't end as it should."""


def build(name, folder):
    """Builds a C file of this folder, and returns the program."""
    program = os.path.join(folder, name)
    subprocess.run([os.environ.get("CC", "cc"), "-O2", "-o", program, HERE / f"{name}.c"], check=True)
    return program


def free_port():
    with socket.socket() as probe:
        probe.bind((ADDRESS, 0))
        return probe.getsockname()[1]


def await_port(process, port):
    """Waits until the port can be connected to."""
    end = time.monotonic() + PATIENCE
    while time.monotonic() < end and process.poll() is None:
        try:
            socket.create_connection((ADDRESS, port)).close()
            return
        except OSError:
            time.sleep(0.05)
    raise Fails(f"{process.args[0]} can't be connected to at port {port}")


def without_places(said):
    """A server's messages, except those about places: which are taken, by which session, and how each session ended."""
    return re.sub(r"hpb: (\d+ of \d+ places taken|place \d+ of \d+ (is held by|\(\S+\) has ended:)[^\n]+)\n", "", said)


def seconds_used(process):
    """The processor's time that a process has used, in all its threads."""
    fields = pathlib.Path(f"/proc/{process.pid}/stat").read_text().rsplit(")", 1)[1].split()
    return (int(fields[11]) + int(fields[12])) / TICKS


def switches(process):
    """How often the living threads of a process were switched voluntarily, and how often involuntarily."""
    voluntary = involuntary = 0
    for status in pathlib.Path(f"/proc/{process.pid}/task").glob("*/status"):
        rows = dict(row.split(":", 1) for row in status.read_text().splitlines())
        voluntary += int(rows["voluntary_ctxt_switches"])
        involuntary += int(rows["nonvoluntary_ctxt_switches"])
    return voluntary, involuntary


def used(process):
    """Seconds of the processor, and both kinds of switches."""
    return seconds_used(process), *switches(process)


@contextlib.contextmanager
def noise(count):
    """Runs so many other processes meanwhile, each of which takes a core."""
    words = [sys.executable, "-c", NOISE, str(os.getpid())]
    beside = [subprocess.Popen(words, stdin=subprocess.DEVNULL) for _ in range(count)]
    try:
        yield
    finally:
        for process in beside:
            process.kill()
            process.wait()


def format_file(program, auction, file, journal, layout):
    """Makes a new file with an auction before its first command."""
    made, is_made = LAYOUTS[layout].format(program, auction.definition(), file, journal)
    if not is_made:
        raise Fails(f"format ended with {made.returncode}: {made.stdout}{made.stderr}")


class Hpb:
    """`hpb serve` on a file, for so many sessions."""

    def __init__(self, program, file, sessions):
        self.port = free_port()
        words = self.words(program, file, str(self.port), str(sessions))
        self.process = subprocess.Popen(words, stdin=subprocess.DEVNULL, stdout=subprocess.PIPE, stderr=subprocess.PIPE, text=True)

    def words(self, program, file, port, sessions):
        return [program, "serve", "--file", file, "--port", port, "--sessions", sessions]

    def listens(self):
        """Waits for its first line. Returns `False` if it was killed before that."""
        line = self.process.stdout.readline()
        if line not in ("", f"LISTENING {self.port}\n"):
            raise Fails(f"serve began with {line!r} {self.stop()}")
        return line != ""

    def end(self):
        """The number of accepted commands, once all sessions have ended."""
        written, said = self.process.communicate(timeout=PATIENCE)
        said = without_places(said)
        if self.process.returncode != 0 or not written.startswith("CLOSED ") or said:
            raise Fails(f"serve ended with {self.process.returncode}: {written}{said}")
        return int(written.split()[1])

    def stop(self):
        """Kills it if it still runs, and returns its messages."""
        if self.process.returncode is not None:
            return ""
        self.process.kill()
        return "".join(self.process.communicate())


class Bare(Hpb):
    """A server in C with one thread, which makes the same calls of the device, and has no rules."""

    def __init__(self, program, file, sessions, journal):
        self.journal = journal
        super().__init__(program, file, sessions)

    def words(self, program, file, port, sessions):
        return [program, file, str(self.journal), port, sessions]


class Redis:
    """A Redis that answers a write once it is on the disk."""

    def __init__(self, folder):
        self.port = free_port()
        rules = ["appendonly yes", "appendfsync always", "save ''", "auto-aof-rewrite-percentage 0", f"dir {folder}"]
        rules += [f"bind {ADDRESS}", f"port {self.port}", "logfile redis.log"]
        path = os.path.join(folder, "redis.conf")
        pathlib.Path(path).write_text("\n".join(rules) + "\n", encoding="utf-8")
        self.process = subprocess.Popen(["redis-server", path], stdout=subprocess.DEVNULL)

    def begin(self):
        await_port(self.process, self.port)

    def stop(self):
        self.process.send_signal(signal.SIGTERM)
        self.process.wait(PATIENCE)


def postgres_tool(name):
    """The newest program of this name, on the path or in Debian's folder."""
    places = sorted(pathlib.Path("/usr/lib/postgresql").glob(f"*/bin/{name}"), key=lambda place: int(place.parts[4]))
    return shutil.which(name) or (str(places[-1]) if places else None)


def unprivileged():
    """If this is run by root: the user by whom PostgreSQL is run."""
    if os.getuid() != 0:
        return {}
    user = next(found for name in UNPRIVILEGED for found in pwd.getpwall() if found.pw_name == name)
    return {"user": user.pw_uid, "group": user.pw_gid, "extra_groups": []}


class Postgres:
    """A PostgreSQL that answers an insert once it is on the disk. All other settings are the defaults."""

    def __init__(self, folder):
        self.port = free_port()
        self.how = {"stdout": subprocess.DEVNULL, "stderr": subprocess.DEVNULL, "cwd": folder, **unprivileged()}
        if "user" in self.how:
            os.chown(folder, self.how["user"], self.how["group"])
        data = os.path.join(folder, "data")
        subprocess.run([postgres_tool("initdb"), "-D", data, "-U", "bench", "-A", "trust"], check=True, **self.how)
        rules = {"fsync": "on", "synchronous_commit": "on", "listen_addresses": ADDRESS, "unix_socket_directories": ""}
        words = [word for name, value in rules.items() for word in ("-c", f"{name}={value}")]
        self.process = subprocess.Popen([postgres_tool("postgres"), "-D", data, "-p", str(self.port), *words], **self.how)

    def begin(self):
        await_port(self.process, self.port)
        words = [postgres_tool("psql"), "-h", ADDRESS, "-p", str(self.port), "-U", "bench", "-d", "postgres"]
        words += ["-c", "CREATE TABLE bids (bidder int, ticket int, node int, amount bigint)"]
        end = time.monotonic() + PATIENCE
        while subprocess.run(words, **self.how).returncode != 0:
            # It listens before it is ready.
            if time.monotonic() > end:
                raise Fails("PostgreSQL makes no table")
            time.sleep(0.1)

    def stop(self):
        # This signal ends open connections, and everything is written.
        self.process.send_signal(signal.SIGINT)
        self.process.wait(PATIENCE)


class Figures:
    """The figures of one run."""

    def __init__(self, text):
        answers, seconds, middle, late, requests, flooded = text.split()
        self.rate, self.flooded = int(answers) / float(seconds), int(flooded) / float(seconds)
        self.middle, self.late = float(middle), float(late)
        self.requests = int(requests)

    def take_cost(self, before, after):
        """Sets the cost of a command, from what the server had used before all commands and after them: microseconds, and switches."""
        seconds, self.voluntary, self.involuntary = [(now - then) / self.requests for then, now in zip(before, after)]
        self.cost = seconds * 1e6


class Load:
    """Puts the same bids on servers of each kind, each time on new data in this folder, with so many of each session in flight."""

    def __init__(self, given, folder, pipeline=1):
        self.given, self.folder, self.pipeline = given, folder, pipeline
        self.auction = Auction(given.levels, given.bidders)
        self.load, self.calls, self.bare = build("load", folder), build("device", folder), build("bare", folder)

    def new_folder(self):
        path = os.path.join(self.folder, "data")
        shutil.rmtree(path, ignore_errors=True)
        os.mkdir(path)
        return path

    def measure(self, kind, port, sessions, flood="none", process=None):
        """The figures of a load and its cost for a process, which is measured while all sessions are still connected."""
        given = self.given
        words = [kind, port, sessions, given.seconds, given.warm, MOST_ANSWERS, given.levels, given.bidders, self.pipeline, flood]
        before = used(process) if process else None
        with subprocess.Popen([self.load, *map(str, words)], **PIPES) as run:
            written = run.stdout.readline()
            after = used(process) if process and written else None
            _, said = run.communicate()
        if run.returncode != 0:
            raise Fails(f"the load of {kind} ended with {run.returncode}: {said}")
        figures = Figures(written)
        if process:
            figures.take_cost(before, after)
        return figures

    def new_file(self, layout=None):
        """A new file, in the layout that is measured unless another is named."""
        file = os.path.join(self.new_folder(), "auction")
        format_file(self.given.program, self.auction, file, self.given.journal, layout or self.given.layout)
        return file

    def serve(self, sessions):
        """hpb with a new file, ready for connections."""
        return self.listening(Hpb(self.given.program, self.new_file(), sessions))

    def listening(self, server):
        if not server.listens():
            raise Fails(f"serve ended: {server.stop()}")
        return server

    def of_hpb(self, sessions, flood="none"):
        """The figures of hpb with these sessions, and perhaps one more that floods it or is silent."""
        return self.of_lines(self.serve(sessions if flood == "none" else sessions + 1), sessions, flood)

    def of_bare(self, sessions):
        """How much the sockets and the device's calls allow to one thread, in pages."""
        return self.of_lines(self.listening(Bare(self.bare, self.new_file(layout=1), sessions, self.given.journal)), sessions)

    def of_lines(self, server, sessions, flood="none"):
        try:
            figures = self.measure("hpb", server.port, sessions, flood, server.process)
            server.end()
        finally:
            server.stop()
        return figures

    def of_redis(self, kind, sessions):
        return self.of_peer(Redis, kind, sessions)

    def of_postgres(self, kind, sessions):
        return self.of_peer(Postgres, kind, sessions)

    def of_peer(self, peer, kind, sessions):
        server = peer(self.new_folder())
        try:
            server.begin()
            return self.measure(kind, server.port, sessions)
        finally:
            server.stop()

    def limit(self):
        """How many batches a second the device's calls alone allow, with two syncs each, and nothing else."""
        batches, seconds = 100, 0
        while seconds < self.given.seconds / 2:
            batches = batches * 4 if seconds < self.given.seconds / 16 else int(batches * self.given.seconds / seconds)
            words = [self.calls, self.new_file(), *map(str, (self.given.layout, self.given.journal, batches, 1, -1))]
            seconds = float(subprocess.run(words, stdout=subprocess.PIPE, check=True).stdout.split()[1])
        return batches / seconds


def add_options(words):
    """Adds the options that all these benchmarks have."""
    words.add_argument("program", type=os.path.abspath, help="the built program")
    words.add_argument("--sessions", type=int, nargs="+", default=[1, 4, 8, 32], help="1 to 32 each (default 1 4 8 32)")
    words.add_argument("--runs", type=int, default=5, help="of each; the median is shown (default 5)")
    words.add_argument("--seconds", type=float, default=3, help="how long a run is counted (default 3)")
    words.add_argument("--warm", type=float, default=0.5, help="how long it runs before (default 0.5)")
    words.add_argument("--folder", default=".", help="the folder of the data (default: the current one)")
    words.add_argument("--journal", type=int, default=1_024, help="frames of the journal (default 1024)")
    add_layouts(words, both=False)
    words.add_argument("--levels", type=int, default=7, help="of the auction's nodes (default 7: 127 nodes)")
    words.add_argument("--bidders", type=int, default=64, help="of the auction (default 64)")


def add_ways(words):
    """Adds the options about how bids are sent, and about other processes that run meanwhile."""
    words.add_argument("--pipeline", type=int, choices=PIPELINES, default=1, help="bids of a session in flight (default 1)")
    words.add_argument("--noise", type=int, default=0, metavar="N", help="processes beside, each of which takes a core")


def ways(given):
    """A line about these options, or an empty text."""
    told = [f"{given.pipeline} bids of each session in flight"] if given.pipeline > 1 else []
    told += [f"beside {given.noise} processes that each take a core"] if given.noise else []
    return ", ".join(told)
