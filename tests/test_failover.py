"""The loss of a machine: an auction outlives each story on a volume that keeps the seven promises, and the trial finds it if one is broken.

`bench/failover` tells more stories. docs/SCALE.md has the volume's commands, which are run from there.
"""

from __future__ import annotations

import shutil
import tempfile
from collections.abc import Iterator
from contextlib import ExitStack, closing
from pathlib import Path

import pytest
from failover.bidders import definition
from failover.cluster import KEEPERS, Cluster
from failover.ledger import Era, Ledger
from failover.long import plans, table
from failover.stories import STORIES, cut_from_all, idle_and_cut, stands_still, writer_lost
from failover.trials import Plan, Result, Trial
from failover.volume import Volume
from harness.auctions import Layout
from harness.failing_calls import EVER, SOURCE, Call, FailingCalls, Rule, Way
from harness.file_systems import Lacking
from harness.fixtures import Lack, Library
from harness.fronts import tool_words, with_package
from harness.programs import Program

SECONDS = 900
MEMORY = Path("/dev/shm")
# The stories of the short form: the server alone and a front, in both layouts.
SHORT = [
    Plan(writer_lost, front=True, layout=Layout.PAGES, seed=1),
    Plan(idle_and_cut, front=False, layout=Layout.CELLS, seed=2),
    Plan(stands_still, front=True, layout=Layout.CELLS, seed=3),
    Plan(cut_from_all, front=False, layout=Layout.PAGES, seed=4),
]

pytestmark = [pytest.mark.as_root, pytest.mark.timeout(SECONDS)]


@pytest.fixture
def cluster(lack: Lack) -> Iterator[Cluster]:
    """Machines without a volume."""
    if shutil.which("glusterd") is None:
        lack("there is no glusterd")
    room = Path(tempfile.mkdtemp(prefix="hpb-failover-", dir=MEMORY))
    try:
        with ExitStack() as stack:
            try:
                made = stack.enter_context(Cluster(room))
            except (Lacking, PermissionError) as reason:
                lack(reason)
                raise
            yield made
    finally:
        shutil.rmtree(room, ignore_errors=True)


def told(cluster: Cluster, volume: Volume, program: Program, plan: Plan) -> Result:
    result = Trial(cluster, volume, program.path, plan).run()
    print(result.line())
    return result


@pytest.mark.slow
def test_an_auction_outlives_each_story(cluster: Cluster, program: Program) -> None:
    volume = Volume(cluster)
    volume.make()
    results = [told(cluster, volume, program, plan) for plan in SHORT]
    assert not [fault for result in results for fault in result.faults], table(results)


@pytest.mark.slow
@pytest.mark.timeout(4 * 3600)
def test_an_auction_outlives_many_stories(cluster: Cluster, program: Program) -> None:
    volume = Volume(cluster)
    volume.make()
    results = [told(cluster, volume, program, plan) for plan in plans(STORIES, 1, 100)]
    assert not [fault for result in results for fault in result.faults], table(results)


@pytest.mark.slow
def test_a_trial_finds_what_breaks_a_promise(cluster: Cluster, program: Program, library: Library, room: Path) -> None:
    """Without a quorum two machines go on, each by itself. If syncs lie, and writes wait in the memory of one machine, a server that is cut off
    acknowledges bids that no other machine has."""
    volume = Volume(cluster)
    volume.make()
    volume.change("cluster.quorum-type none")
    assert told(cluster, volume, program, Plan(cut_from_all, front=False, layout=Layout.PAGES, seed=11)).faults
    volume.change("cluster.quorum-type auto performance.write-behind on performance.flush-behind on performance.write-behind-window-size 4MB")
    with closing(FailingCalls(library(SOURCE), room)) as calls:
        calls.set(Rule(Call.SYNC, Way.LEFT_OUT, last=EVER))
        cluster.variables = dict.fromkeys(KEEPERS, dict(calls.conditions().variables()))
        assert told(cluster, volume, program, Plan(cut_from_all, front=False, layout=Layout.PAGES, seed=12)).faults


@pytest.mark.slow
def test_a_standby_names_the_promise_that_an_option_breaks(cluster: Cluster, program: Program) -> None:
    volume = Volume(cluster)
    volume.make()
    machine = cluster.machines[1]
    machine.run("sh", "-c", "cat > /run/definition.json", input=definition())
    words = ["env", f"PYTHONPATH={with_package({})['PYTHONPATH']}", *tool_words("auction"), "--program", str(program.path)]
    machine.run(*words, "new", "sale", "--definition", "/run/definition.json", "--journal", "16")
    for change, promise, why, back in (
        ("cluster.quorum-type none", 4, "quorum-type isn't auto", "cluster.quorum-type auto"),
        ("client.strict-locks off", 5, "strict-locks isn't on", "client.strict-locks on"),
        ("performance.write-behind on", 1, "write-behind is on", "performance.write-behind off"),
    ):
        volume.change(change)
        ran = machine.ran(*words, "standby", "sale")
        assert (ran.returncode, ran.stdout) == (1, "")
        assert ran.stderr == f"auction: /var/lib/hpb breaks promise {promise} of docs/SCALE.md: {why}. Set {back}, and mount it again\n"
        volume.change(back)


def test_a_ledger_finds_what_is_lost_or_twice_or_of_two_servers() -> None:
    ledger = Ledger()
    first, second = Era(1, 0.0, 0), Era(2, 1.0, 1)
    ledger.begin(first)
    ledger.take(first, "BID a 1 n 100", 1)
    ledger.begin(second)
    ledger.take(second, "BID a 1 n 100", 1)
    ledger.take(second, "BID b 1 n 100", 2)
    assert ledger.history(2) == ["BID a 1 n 100", "BID b 1 n 100"] and not ledger.faults
    ledger.take(second, "BID b 1 n 100", 3)
    ledger.take(first, "BID c 1 n 100", 2)
    ledger.begin(Era(3, 2.0, 1))
    ledger.history(4)
    assert ledger.faults == [
        "twice: 'BID b 1 n 100' was answered OK 2, and OK 3",
        "lost: 'BID b 1 n 100' and 'BID c 1 n 100' were both answered OK 2",
        "two writers: machine 1 answered OK 2, and machine 2 had begun with 1",
        "lost: machine 3 began with 1 commands, and 3 had an OK",
        "lost: the file has 4 commands, and the answers speak of 3, up to 3",
    ]
