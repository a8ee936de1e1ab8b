"""The Debian packages: made by one command, clean by lintian, installed, upgraded and removed on a machine of their own, whose systemd runs a front.

    /usr/bin/python3 -B -m pytest -n 1 tests/test_packages.py --program PROGRAM

The packages are made of the program under test, as unproved ones.
"""

from __future__ import annotations

import hashlib
import shutil
import subprocess
import time
from collections.abc import Iterator
from pathlib import Path

import pytest
from harness.file_systems import Lacking
from harness.fixtures import Lack
from harness.machines import Machine

TOP = Path(__file__).resolve().parent.parent
SECONDS = 1_200
# The package of which a build makes another version.
LATER = "0.1.1"
# Seconds from the installation to the first accepted bid.
FIRST_SECONDS = 120
# A service of the packages may be exposed by so much, in tenths, as systemd-analyze counts it.
MOST_EXPOSED = 20
SALE = r"""
install -d -o hpb -g hpb -m 700 /var/lib/hpb/sale
cd /var/lib/hpb/sale
cat > d.json
setpriv --reuid hpb --regid hpb --clear-groups hpb format --file auction.hpb --journal 64 < d.json
openssl req -x509 -newkey rsa:2048 -nodes -days 30 -subj /CN=localhost -addext subjectAltName=DNS:localhost -keyout front.key -out front.pem
printf '%s\n' 'file = "auction.hpb"' 'record = "auction.record"' 'tokens = "auction.tokens"' 'listen = "127.0.0.1:6000"' \
    'certificate = "front.pem"' 'key = "$CREDENTIALS_DIRECTORY/key"' '[names]' 'desk = "auctioneer"' 'ann = ["x"]' 'bob = ["y", "z", "w"]' \
    '[board]' 'listen = "127.0.0.1:8443"' > front.toml
chown hpb:hpb *
chmod 600 *
mkdir -p /etc/credstore /etc/systemd/system/hpb-front@sale.socket.d
mv front.key /etc/credstore/hpb-sale.key
chown root:root /etc/credstore/hpb-sale.key
setpriv --reuid hpb --regid hpb --clear-groups env CREDENTIALS_DIRECTORY=/nowhere hpb-front --config front.toml --make-tokens
printf '[Socket]\nListenStream=127.0.0.1:6000\nListenStream=127.0.0.1:8443\n' > /etc/systemd/system/hpb-front@sale.socket.d/addresses.conf
systemctl daemon-reload
"""
# Asks for the page without a token.
PAGE = """
import ssl, urllib.error, urllib.request
try:
    urllib.request.urlopen("https://localhost:8443/", context=ssl.create_default_context(cafile="/var/lib/hpb/sale/front.pem"))
except urllib.error.HTTPError as refused:
    print(refused.code)
"""
ASK = "hpb-client localhost:6000 --token auction.tokens --name {name} --ca front.pem"

pytestmark = [pytest.mark.as_root, pytest.mark.slow, pytest.mark.timeout(SECONDS)]


def built(tree: Path, program: Path, out: Path) -> list[Path]:
    """The packages that a tree's own script makes of a program: first `hpb`, then `hpb-tools`."""
    subprocess.run([tree / "packaging" / "build", "--unproved", program, out], check=True, capture_output=True, timeout=SECONDS)
    return sorted(out.glob("hpb_*.deb")) + sorted(out.glob("hpb-tools_*.deb"))


@pytest.fixture(scope="module")
def packages(built_program: Path, tmp_path_factory: pytest.TempPathFactory, lack: Lack) -> list[Path]:
    if shutil.which("dh") is None:
        lack("debhelper isn't there: packaging/packages lists the packages that a build needs")
    return built(TOP, built_program, tmp_path_factory.mktemp("packages"))


@pytest.fixture(scope="module")
def built_program(request: pytest.FixtureRequest) -> Path:
    """The first program under test."""
    named: list[Path] = request.config.getoption("--program") or [TOP / "crates" / "hpb" / "out" / "hpb"]
    return named[0].resolve()


@pytest.fixture(scope="module")
def machine(packages: list[Path], tmp_path_factory: pytest.TempPathFactory, lack: Lack) -> Iterator[Machine]:
    """A machine with the packages."""
    try:
        with Machine(tmp_path_factory.mktemp("machine")) as made:
            for package in packages:
                made.put(package, f"/tmp/{package.name}")
            made.run("dpkg", "--install", *(f"/tmp/{package.name}" for package in packages))
            yield made
    except (Lacking, PermissionError) as reason:
        lack(reason)


@pytest.fixture(scope="module")
def sale(machine: Machine) -> Machine:
    """A machine whose systemd runs the front of the auction `sale`."""
    definition = (TOP / "examples" / "package-beats-parts.txt").read_text().splitlines()[0]
    machine.run("bash", "-euc", SALE, input=definition)
    machine.run("systemctl", "start", "hpb-front@sale")
    return machine


def ask(machine: Machine, name: str, *lines: str) -> list[str]:
    """The answers to a name's lines."""
    return machine.run("sh", "-c", f"cd /var/lib/hpb/sale && {ASK.format(name=name)}", input="".join(f"{line}\n" for line in lines)).splitlines()


def shown(machine: Machine, what: str) -> str:
    return machine.run("systemctl", "show", "--value", "--property", what, "hpb-front@sale").strip()


def wait_until_active(machine: Machine, seconds: float = 60) -> None:
    end = time.monotonic() + seconds
    while shown(machine, "ActiveState") != "active" or shown(machine, "SubState") != "running":
        assert time.monotonic() < end, machine.ran("journalctl", "-u", "hpb-front@sale", "-n", "20", "--no-pager").stdout
        time.sleep(0.2)


def test_lintian_has_nothing_to_say(packages: list[Path]) -> None:
    changes = next(packages[0].parent.glob("*.changes"))
    ran = subprocess.run(["lintian", "--allow-root", "--fail-on", "error,warning", changes], capture_output=True, text=True, timeout=SECONDS, check=False)
    assert ran.returncode == 0, ran.stdout + ran.stderr


def test_the_packages_have_the_program_byte_for_byte_and_its_sum(packages: list[Path], built_program: Path, tmp_path: Path) -> None:
    subprocess.run(["dpkg-deb", "--extract", packages[0], tmp_path], check=True, timeout=SECONDS)
    assert (tmp_path / "usr/bin/hpb").read_bytes() == built_program.read_bytes()
    rows = [line.split("  ", 1) for line in (tmp_path / "usr/share/doc/hpb/manifest.sha256").read_text().splitlines()]
    manifest = {name: digest for digest, name in rows}
    assert manifest["crates/hpb/out/hpb"] == hashlib.sha256(built_program.read_bytes()).hexdigest()
    for source in ("crates/hpb_rules/src/lib.rt", "crates/hpb/src/main.rt", "crates.txt"):
        assert manifest[source] == hashlib.sha256((TOP / source).read_bytes()).hexdigest()
    sources = {str(path.relative_to(TOP)) for path in TOP.glob("crates/*/src/**/*.rt") if "/out/" not in str(path)}
    assert sources <= manifest.keys()


def test_the_tools_bring_what_a_bundle_needs(packages: list[Path]) -> None:
    listed = subprocess.run(["dpkg-deb", "--contents", packages[1]], capture_output=True, text=True, check=True, timeout=SECONDS).stdout
    for name in ("seals/vectors.json", "seals/verify.mjs", "seals/state.mjs", "report/bundle.md"):
        assert f"/usr/lib/python3/dist-packages/hpb/{name}\n" in listed, name


def test_units_are_hardly_exposed(packages: list[Path]) -> None:
    unit = TOP / "packaging" / "systemd" / "hpb-front@.service"
    words = ["systemd-analyze", "security", "--offline=yes", f"--threshold={MOST_EXPOSED}", "--no-pager", str(unit)]
    ran = subprocess.run(words, capture_output=True, text=True, timeout=SECONDS, check=False)
    assert ran.returncode == 0, ran.stdout


def test_units_are_verified_by_systemd(sale: Machine) -> None:
    assert sale.run("systemd-analyze", "verify", "hpb-front@sale.service", "hpb-front@sale.socket") == ""


def test_a_front_starts_and_its_bidders_are_answered(sale: Machine) -> None:
    wait_until_active(sale)
    assert ask(sale, "ann", "SHOW", "WHO x") == ["ROUND 1 STAGE 1 OPEN REVENUE 0 COUNT 0", "WHO x ELIGIBILITY 10 ACTIVITY 0 TICKET 0"]
    assert sale.run("python3", "-c", PAGE) == "401\n"


def test_front_and_server_are_in_a_network_of_their_own(sale: Machine) -> None:
    wait_until_active(sale)
    outside = sale.run("readlink", "/proc/1/ns/net")
    processes = sale.run("systemctl", "show", "--value", "--property", "MainPID", "hpb-front@sale").split()
    processes += sale.run("pgrep", "--uid", "hpb").split()
    assert len(processes) >= 3
    assert outside not in {sale.run("readlink", f"/proc/{one}/ns/net") for one in processes}


def test_another_user_gets_nowhere(sale: Machine) -> None:
    wait_until_active(sale)
    as_nobody = ("setpriv", "--reuid", "nobody", "--regid", "nogroup", "--clear-groups")
    for place in ("/var/lib/hpb/sale/auction.hpb", "/var/lib/hpb/sale/auction.tokens", "/var/lib/hpb/sale/front.toml",
                  "/etc/credstore/hpb-sale.key", "/run/credentials/hpb-front@sale.service/key"):
        sale.run("wc", "--bytes", place)
        ran = sale.ran(*as_nobody, "wc", "--bytes", place)
        assert ran.returncode == 1 and "Permission denied" in ran.stderr
    # The server's port isn't one of the machine: there only the two addresses of the socket unit are listened at.
    assert {line.split()[3] for line in sale.run("ss", "-Hltn").splitlines()} == {"127.0.0.1:6000", "127.0.0.1:8443"}
    main = shown(sale, "MainPID")
    assert sale.ran(*as_nobody, "kill", main).returncode == 1


def test_the_front_sees_no_other_auction(sale: Machine) -> None:
    sale.shell("install -d -o hpb -g hpb -m 700 /var/lib/hpb/other; echo secret > /var/lib/hpb/other/file; chown hpb:hpb /var/lib/hpb/other/file")
    wait_until_active(sale)
    main = shown(sale, "MainPID")
    assert sale.run("nsenter", "--target", main, "--mount", "ls", "/var/lib/hpb") == "sale\n"


def test_a_front_that_is_killed_comes_back_with_all_that_it_has_answered(sale: Machine) -> None:
    wait_until_active(sale)
    assert ask(sale, "ann", "BID x 1 a 100") == ["OK 1"]
    before = shown(sale, "MainPID")
    sale.run("kill", "-KILL", before)
    # The sockets stay: a client that comes meanwhile waits for its answer.
    assert ask(sale, "bob", "SHOW", "BID y 1 b 150") == ["ROUND 1 STAGE 1 OPEN REVENUE 0 COUNT 1", "OK 2"]
    wait_until_active(sale)
    assert shown(sale, "MainPID") != before


def test_a_front_that_stands_still_is_started_again(sale: Machine) -> None:
    sale.shell("mkdir -p /run/systemd/system/hpb-front@sale.service.d; printf '[Service]\\nWatchdogSec=3\\n' > /run/systemd/system/hpb-front@sale.service.d/w.conf")
    sale.shell("systemctl daemon-reload; systemctl restart hpb-front@sale")
    wait_until_active(sale)
    before = shown(sale, "MainPID")
    sale.run("kill", "-STOP", before)
    count = ask(sale, "ann", "SHOW")[0].split()[-1]
    wait_until_active(sale)
    assert shown(sale, "MainPID") != before
    assert ask(sale, "ann", "SHOW")[0].split()[-1] == count
    sale.shell("rm -r /run/systemd/system/hpb-front@sale.service.d; systemctl daemon-reload; systemctl restart hpb-front@sale")


def test_tokens_are_taken_in_by_a_reload(sale: Machine) -> None:
    wait_until_active(sale)
    token = sale.shell("cd /var/lib/hpb/sale; setpriv --reuid hpb --regid hpb --clear-groups env CREDENTIALS_DIRECTORY=/nowhere "
                       "hpb-front --config front.toml tokens add ann").split()[2]
    sale.run("systemctl", "reload", "hpb-front@sale")
    wait_until_active(sale)
    sale.run("sh", "-c", "umask 077; cat > /tmp/token", input=f"{token}\n")
    assert sale.run("hpb-client", "localhost:6000", "--token", "/tmp/token", "--ca", "/var/lib/hpb/sale/front.pem", input="WHO x\n").startswith("WHO x ")


def test_a_wrong_configuration_is_reported_and_not_tried_again(sale: Machine) -> None:
    sale.shell("systemctl stop hpb-front@sale; cd /var/lib/hpb/sale; cp -p front.toml kept; echo 'nonsense = 1' | cat - kept > front.toml")
    assert sale.ran("systemctl", "start", "hpb-front@sale").returncode == 1
    assert (shown(sale, "ActiveState"), shown(sale, "NRestarts")) == ("failed", "0")
    assert "front: nonsense: there is no such field" in sale.run("journalctl", "--unit", "hpb-front@sale", "--no-pager")
    sale.shell("cd /var/lib/hpb/sale; mv kept front.toml; systemctl reset-failed; systemctl start hpb-front@sale")
    wait_until_active(sale)


def test_an_upgrade_leaves_the_front_running_and_a_purge_leaves_the_auction(
    sale: Machine, built_program: Path, tmp_path: Path, tmp_path_factory: pytest.TempPathFactory
) -> None:
    tree = tmp_path / "tree"
    shutil.copytree(TOP, tree, ignore=shutil.ignore_patterns(".git", "out", "__pycache__"), symlinks=True)
    changelog = tree / "debian" / "changelog"
    entry = changelog.read_text()
    changelog.write_text(entry.replace("(0.1.0)", f"({LATER})", 1) + "\n" + entry)
    later = built(tree, built_program, tmp_path_factory.mktemp("later"))
    assert [package.name.split("_")[1] for package in later] == [f"{LATER}~unproved"] * 2
    wait_until_active(sale)
    before, count = shown(sale, "MainPID"), ask(sale, "ann", "SHOW")[0]
    for package in later:
        sale.put(package, f"/tmp/{package.name}")
    sale.run("dpkg", "--install", *(f"/tmp/{package.name}" for package in later))
    assert shown(sale, "MainPID") == before
    sale.run("systemctl", "restart", "hpb-front@sale")
    assert ask(sale, "ann", "SHOW")[0] == count
    sale.run("systemctl", "stop", "hpb-front@sale.socket", "hpb-front@sale.service")
    sale.run("dpkg", "--purge", "hpb-tools", "hpb")
    for place in ("/usr/bin/hpb", "/usr/bin/hpb-front", "/lib/systemd/system/hpb-front@.service", "/usr/lib/python3/dist-packages/hpb"):
        assert sale.ran("test", "-e", place).returncode == 1
    assert sale.run("ls", "/var/lib/hpb/sale").splitlines()[0] == "auction.hpb"


def test_two_builds_of_one_tree_have_the_same_bytes(packages: list[Path], built_program: Path, tmp_path: Path) -> None:
    again = built(TOP, built_program, tmp_path / "again")
    assert [package.read_bytes() for package in again] == [package.read_bytes() for package in packages]


def test_a_program_that_the_gate_didnt_prove_isnt_packed_as_a_proved_one(tmp_path: Path, built_program: Path) -> None:
    tree = tmp_path / "tree"
    shutil.copytree(TOP, tree, ignore=shutil.ignore_patterns(".git", "out", "__pycache__"), symlinks=True)
    place = tree / "crates" / "hpb" / "out"
    place.mkdir()
    shutil.copy(built_program, place / "hpb")
    manifest = subprocess.run([tree / "packaging" / "make-manifest"], check=True, capture_output=True, timeout=SECONDS).stdout
    (place / "manifest.sha256").write_bytes(manifest)
    (tree / "crates" / "hpb" / "src" / "main.rt").write_bytes(b"// something else\n")
    ran = subprocess.run([tree / "packaging" / "build", tmp_path / "out"], capture_output=True, text=True, timeout=SECONDS, check=False)
    assert ran.returncode == 1
    assert ran.stderr == ("packaging/build: the program and its sources aren't those that the gate proved (crates/hpb/out/manifest.sha256); run .ci/run\n")
    assert list((tmp_path / "out").iterdir()) == []


def test_the_readmes_commands_lead_to_an_accepted_bid_within_two_minutes(packages: list[Path], tmp_path_factory: pytest.TempPathFactory, lack: Lack) -> None:
    """On a machine that has never had the packages: its commands word for word, but for `sudo`."""
    text = (TOP / "README.md").read_text().split("## The first minutes")[1].split("\n## ")[0]
    commands = "\n".join(line[4:].replace("sudo ", "") for line in text.splitlines() if line.startswith("    "))
    assert len(commands.splitlines()) == 4
    try:
        with Machine(tmp_path_factory.mktemp("first")) as machine:
            for package in packages:
                machine.put(package, f"/tmp/{package.name}")
            began = time.monotonic()
            said = machine.shell(f"cd /tmp\n{commands.replace('apt install', 'apt-get install --yes --no-install-recommends')}")
            assert said.splitlines()[-1] == "OK 1" and time.monotonic() - began < FIRST_SECONDS
            assert machine.run("systemctl", "is-active", "hpb-front@sale") == "active\n"
    except (Lacking, PermissionError) as reason:
        lack(reason)
