"""Pairs of runs of a front that differ in what a viewer may not know alone: for each channel the viewer has to get the same bytes.

A `Plan` is a script of rounds that a seed writes twice: in the second one others bid, at other times. `Run` carries one of the two
out on the core of a front, without input or output, and keeps all that the viewer is given.
"""
from __future__ import annotations

import base64
import json
import random
import re
import socket
from collections import defaultdict
from collections.abc import Sequence
from dataclasses import dataclass, field

from front_sealed import SealedDisk, look_up
from front_world import ROLES, Server, Watch, Wire, World, tokens_of
from front_world import token as token_of_name
from hpb.front.core import effects, events
from hpb.front.core.information import EVERYTHING, Identities, Information, Rule
from hpb.front.given import Given
from hpb.front.information import with_rules
from hpb.front.viewers import known_of
from hpb.lines import Accepted, Bid, Close, Command, Waive, format_line
from hpb.pages.following import Follower
from hpb.rules import Auction, apply, begin, read_definition
from hpb.rules.preview import taken
from hpb.rules.tree import tree_of

NODES = ("a", "b", "c", "d", "ab")
DEFINITION = json.dumps({
    "step": 10, "percent": 10, "stages": [50, 100], "waivers": 20,
    "nodes": [
        {"name": "ab", "parent": None}, {"name": "a", "parent": "ab", "units": 10, "opening": 100},
        {"name": "b", "parent": "ab", "units": 10, "opening": 100}, {"name": "c", "parent": None, "units": 10, "opening": 200},
        {"name": "d", "parent": None, "units": 10, "opening": 50},
    ],
    "bidders": [{"name": name, "units": 100} for name in ("x", "y", "z", "w")],
}).encode()
TREE = tree_of(read_definition(DEFINITION))
# The rules of runs, from those that hide most.
RULES = [
    Rule(Identities.NONE, False, False), Rule(Identities.OWN, False, True), Rule(Identities.NONE, True, True), Rule(Identities.OWN, True, False),
    Rule(Identities.ALL, False, True),
]
LINES, NEWS, PAGE, EXPORT, SIZES = CHANNELS = ("lines", "news", "page", "export", "sizes")


@dataclass
class Round:
    """A round of one run: the lines of all names in their order, each with its name. `LOOK` is when the viewer asks for all that it may."""

    lines: list[tuple[str, str]]


LOOK = ("", "")
# In seals and receipts: proofs, numbers of entries, hashes, signatures, keys and salts.
OF_ENTRIES = re.compile(
    rb'CONSISTENCY [0-9a-f,-]+|"path":\[[^\]]*\]|(?:ENTRIES|with|\\"entry\\":|\\"synced\\":) ?[0-9]+|[0-9a-f]{128}|[0-9a-f]{64}|[0-9a-f]{32}'
)


@dataclass
class Plan:
    """Two scripts of an auction, and the places at which the front is killed, by the number of the round."""

    viewer: str
    rule: Rule
    rounds: tuple[list[Round], list[Round]]
    kills: frozenset[int]
    messages: frozenset[int] = frozenset()


class Writer:
    """Writes a plan. `auctions` are both runs by the package's rules: a command is kept if both accept it."""

    def __init__(self, seed: int, viewer: str) -> None:
        self.dice = random.Random(f"{seed} {viewer}")
        self.rule = RULES[seed % len(RULES)]
        self.viewer, self.own = viewer, ROLES[viewer].bidders
        self.hidden = [bidder for bidder in TREE.bidders if bidder not in self.own]
        # With pseudonyms two runs look alike if all of one bidder's bids are another one's; without names each bid may be anyone's.
        shuffled = self.dice.sample(self.hidden, len(self.hidden))
        self.other = dict(zip(self.hidden, shuffled))
        self.auctions = [begin(read_definition(DEFINITION)) for _ in range(2)]

    def plan(self) -> Plan:
        count = self.dice.randint(2, 4)
        rounds = [self.round() for _ in range(count)]
        kills = frozenset(number for number in range(count) if self.dice.random() < 0.2)
        return Plan(self.viewer, self.rule, ([one for one, _ in rounds], [other for _, other in rounds]), kills)

    def round(self) -> tuple[Round, Round]:
        own = [self.accepted([self.bid(bidder)] * 2) for bidder in self.own if self.dice.random() < 0.7]
        before = [self.hidden_command() for _ in range(self.dice.randint(0, 2))]
        mine = [one for one in own if one]
        after = [self.hidden_command() for _ in range(self.dice.randint(1, 4))]
        looks = self.dice.randint(1, 2)
        runs = tuple(
            Round([*told(before, which), *told(mine, which), *self.mixed(told(after, which), looks)]) for which in range(2)
        )
        self.auctions = [taken(auction, Close()) for auction in self.auctions]
        return runs[0], runs[1]

    def mixed(self, lines: list[tuple[str, str]], looks: int) -> list[tuple[str, str]]:
        """The lines with looks among them. If the count is that of now, they come behind all lines, else anywhere."""
        if self.rule.is_count_exact:
            return lines + [LOOK] * looks
        for _ in range(looks):
            lines.insert(self.dice.randint(0, len(lines)), LOOK)
        return lines

    def bid(self, bidder: str) -> Command:
        node = self.dice.choice(NODES)
        return Bid(bidder, node, self.auctions[0].standing.minima[node] + 10 * self.dice.randint(0, 9))

    def hidden_command(self) -> list[Command] | None:
        """A command of two bidders: in the second run it is another one's, if the viewer isn't to know whose it is."""
        first = self.dice.choice(self.hidden)
        second = {Identities.ALL: first, Identities.OWN: self.other[first], Identities.NONE: self.dice.choice(self.hidden)}[self.rule.identities]
        if self.dice.random() < 0.2:
            return self.accepted([Waive(first), Waive(second)])
        bid = self.bid(first)
        assert isinstance(bid, Bid)
        return self.accepted([bid, Bid(second, bid.node, bid.amount)])

    def accepted(self, commands: Sequence[Command]) -> list[Command] | None:
        """The commands with their tickets, if both runs accept them. An amount that another bid of the round has is left out: the earlier one
        would win, and shows itself."""
        numbered = [self.numbered(auction, command) for auction, command in zip(self.auctions, commands)]
        answers = [apply(auction, command) for auction, command in zip(self.auctions, numbered)]
        if not all(isinstance(answer, Accepted) for _, answer in answers):
            return None
        self.auctions = [auction for auction, _ in answers]
        return numbered

    @staticmethod
    def numbered(auction: Auction, command: Command) -> Command:
        assert isinstance(command, Bid | Waive)
        last = auction.bidders[command.bidder].last
        ticket = (last.command.ticket if last else 0) + 1
        return Bid(command.bidder, command.node, command.amount, ticket) if isinstance(command, Bid) else Waive(command.bidder, ticket)


def told(commands: Sequence[list[Command] | None], which: int) -> list[tuple[str, str]]:
    """The lines of one run, each with the name that sends it."""
    owners = {bidder: name for name, role in ROLES.items() for bidder in role.bidders}
    lines = [command[which] for command in commands if command]
    return [(owners[line.bidder], format_line(line)) for line in lines if isinstance(line, Bid | Waive)]


class Ears(Watch):
    """What connections and the page are answered."""

    def __init__(self) -> None:
        self.heard: dict[int, list[bytes]] = defaultdict(list)
        self.of_board: dict[int, bytes] = {}

    def effect(self, world: World, effect: effects.Effect) -> None:
        match effect:
            case effects.Answer(number, line):
                self.heard[number].append(line)
            case effects.AnswerBoard(number, line):
                self.of_board[number] = line


class Deaf:
    """A client that ignores its answers."""

    def hear(self, wire: Wire, line: bytes) -> None:
        pass


@dataclass
class Run:
    """A front's core in a world, moved on until nothing is left to do after each line. `given` has all that the viewer is given, by channel."""

    plan: Plan
    which: int
    information: Information
    has_seals: bool = False
    given: dict[str, list[bytes]] = field(default_factory=lambda: {channel: [] for channel in CHANNELS})

    def __post_init__(self) -> None:
        self.ears = Ears()
        server = Server(auction=begin(read_definition(DEFINITION)))
        self.world = World(random.Random(1), self.ears, tree=TREE, information=self.information, server=server)
        if self.has_seals:
            self.world.disk = SealedDisk(tree=TREE)
        self.wires: dict[str, Wire] = {}
        self.tickets = 0
        self.begin()

    # The world.

    def begin(self) -> None:
        """Starts the front, and its page."""
        self.wires = {}
        self.world.start()
        while not self.world.is_admitting:
            self.settle()
            self.world.move_board()
        self.world.pass_time(0.5)
        roles = {self.plan.viewer: with_rules(self.information, ROLES)[self.plan.viewer]}
        given = Given(TREE, roles, [], 16, 100, tokens_of(dict.fromkeys(ROLES, 1)), None, self.information)
        self.follower = Follower(TREE, list(TREE.bidders), self.opens, lambda view: guests.hang(view), names=list(roles))
        guests = known_of(given, self.follower.view)
        self.wall = guests.wall_of(signed_in(self.plan.viewer))
        self.seen = self.wall.now()[1:]

    @staticmethod
    def opens(patience: float) -> socket.socket:
        raise AssertionError("the page asks in this process")

    def settle(self) -> None:
        """Moves the world until it is at rest."""
        world = self.world
        while world.front:
            disk, server = world.disk, world.server
            if world.leaving or any(not wire.has_ended and (not wire.is_open or (wire.most and wire.inbox)) for wire in world.wires.values()):
                world.move_wires()
            elif server.state in ("starting", "lost") or server.asked or server.answers:
                world.move_server()
            elif disk.writes or disk.puts:
                world.move_disk()
            elif world.lookups:
                look_up(world)
            else:
                return

    def send(self, name: str, line: str) -> bytes:
        """The answer to a line of a name."""
        if name not in self.wires:
            wire = self.world.connect(Deaf(), name)
            assert wire
            self.wires[name] = wire
            wire.inbox.append(b"TOKEN " + token_of_name(name, 1))
        self.wires[name].inbox.append(line.encode())
        self.settle()
        return self.ears.heard[self.wires[name].number][-1]

    def ask(self, questions: Sequence[str]) -> list[str]:
        """The front's answers to its page."""
        answers = []
        for question in questions:
            self.world.asked.append(number := next(self.world.numbers))
            self.world.post(events.BoardAsks(number, question.encode()))
            self.settle()
            answers.append(self.ears.of_board[number].decode("latin-1"))
        return answers

    # What the viewer is given.

    def look(self) -> None:
        """The viewer asks for all that it may."""
        own = ROLES[self.plan.viewer].bidders
        lines = ["SHOW", *(f"NODE {node}" for node in TREE.nodes), *(f"WHO {bidder}" for bidder in own), "WHO y", "INFORMATION", "PREVIEW"]
        if self.has_seals:
            lines += ["SEAL", "SEAL 1", *(f"RECEIPT {number}" for number in range(1, 10))]
        self.keep(LINES, *(self.send(self.plan.viewer, line) for line in lines))
        self.keep(NEWS, *(self.send(self.plan.viewer, line) for line in ("EVENT 0", "EVENT 1", "EVENT", "READ 1")))
        self.look_at_page()

    def look_at_page(self) -> None:
        """The page asks, and the viewer gets an event, if there is one, and the whole page."""
        self.follower.look(self)
        known, number = self.seen
        view, model, newest = self.wall.now()
        said = self.wall.next(number, 0)[2] if newest != number else ""
        self.keep(PAGE, self.wall.page.html(model), *([self.wall.page.event(known, model, said)] if newest != number else []))
        self.keep(EXPORT, self.wall.page.picture(view) or b"")
        self.seen = model, newest

    def keep(self, channel: str, *given: bytes) -> None:
        """Of seals and receipts all is kept but for hashes, which are salted, and how many entries the record has, which each name may know."""
        known = [OF_ENTRIES.sub(b"", one) if self.has_seals else one for one in given]
        self.given[channel] += known
        self.given[SIZES] += [b"%d" % len(one) for one in known]

    # The auction.

    def desk(self, word: str) -> bytes:
        self.tickets += 1
        return self.send("desk", f"{word} {self.tickets}")

    def carry_out(self) -> "Run":
        """The rounds, the end, a look before it is unveiled, and that it can't be unveiled before."""
        for number, one in enumerate(self.plan.rounds[self.which]):
            if number in self.plan.kills:
                self.world.kill()
                self.begin()
            # In one of the runs others get news of their own, and ask more.
            if self.which and number == 0:
                other = next(name for name in ("bob", "ann") if name != self.plan.viewer)
                self.send("desk", f"SAY {other} call me")
                self.send(other, "SHOW")
            for name, line in one.lines:
                if (name, line) == LOOK:
                    self.look()
                else:
                    self.answer_of(name, line)
            assert self.send("desk", "UNVEIL") == b"ERR front running"
            assert self.desk("CLOSE").startswith(b"OK ")
            self.look()
        assert self.desk("CLOSE").startswith(b"OK ")
        self.look()
        return self

    def answer_of(self, name: str, line: str) -> None:
        answer = self.send(name, line)
        assert answer.startswith(b"OK "), (name, line, answer)
        if name == self.plan.viewer:
            self.keep(LINES, answer)

    def unveil(self) -> None:
        """All is unveiled, and the viewer looks once more."""
        assert b" UNVEIL " in self.send("desk", "UNVEIL")
        self.look()


def signed_in(name: str) -> str:
    """A browser's field `Authorization`."""
    return "Basic " + base64.b64encode(f"{name}:".encode() + token_of_name(name, 1)).decode()


def information_of(plan: Plan, *observers: str) -> Information:
    return Information(plan.rule, EVERYTHING, observers)


def pair(seed: int, viewer: str, *observers: str, has_seals: bool = False) -> tuple[Run, Run]:
    """Both runs of a seed, up to the end of the auction."""
    plan = Writer(seed, viewer).plan()
    runs = [Run(plan, which, information_of(plan, *observers), has_seals).carry_out() for which in range(2)]
    return runs[0], runs[1]


def differing(runs: tuple[Run, Run]) -> list[str]:
    """The channels in which the viewer gets other bytes."""
    return [channel for channel in CHANNELS if runs[0].given[channel] != runs[1].given[channel]]
