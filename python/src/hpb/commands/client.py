"""Sends each line of standard input to an auction, and prints its answer.

    tools/client 5000 < lines                                  to `hpb serve` at port 5000 of this machine
    tools/client localhost:6000 --token ann.token --ca front.pem < lines             to a front, over TLS
    tools/client localhost:6000 --token auction.tokens --name ann --ca front.pem     the same, by a file of all tokens
    tools/client localhost:6000 --token ann.token --ca front.pem --news              writes a front's news as they come

It connects when the first line comes. If the connection is lost, it connects again for up to a minute, says the token again, and
sends the line that has no answer again. A command's ticket makes sure that it is accepted once; a repeat gets the same number. If
its tries fail for more than two seconds, standard error says so, once for each line. On a terminal, all but the printable
characters of ASCII are escaped. If the auction is a mock, standard error says so. It sends no line that was begun at a mock to the auction
itself.

The status is:

- 0, when each line has its answer;
- 1, if it gives up, for the reason on standard error;
- 2, if its arguments are wrong.

docs/FRONT.md has more about fronts and tokens. Needs Python 3.11.
"""
import argparse
import os
import socket
import ssl
import sys
import time
from typing import BinaryIO

from hpb.commands import parser
from hpb.commands.shell import from_shell, say
from hpb.pages.reaching import ENDS, TAKEN_AWAY, GivesUp, add_options, connected, context_of, look_at_options, read_place, read_token
from hpb.plain import plain
from hpb.rounds import NOTICE
from hpb.streams import STANDARD_INPUT, STANDARD_OUTPUT, lines_of, write_all

# The longest answer of `hpb serve`, and of a front, each with its LF: docs/PROTOCOL.md.
MOST_ANSWER, MOST_OF_FRONT = 104 + 1, 255 + 1
PATIENCE, SILENCE, PAUSE = 60, 2, 0.1
# How often a front is asked for news, in seconds.
PACE = 1.0


class Client:
    """A connection that is made again whenever it is lost."""

    def __init__(self, place: tuple[str, int], token: str | None = None, context: ssl.SSLContext | None = None) -> None:
        """To a host and a port. If there is a token, it is sent first."""
        self.place, self.token, self.context = place, token, context
        self.most = MOST_OF_FRONT if token else MOST_ANSWER
        self.socket: socket.socket | None = None
        self.stream: BinaryIO | None = None
        # Whether the auction is a mock; unknown before the first greeting.
        self.is_mock: bool | None = None

    def ask(self, line: bytes) -> bytes:
        """The answer to a line, both with their LF. If there is none, the GivesUp that is raised says why."""
        begun, silent = time.monotonic(), True
        while True:
            try:
                return self.told(line)
            except OSError as fault:
                self.hang_up()
                waited, whose = time.monotonic() - begun, f"from {self.place[0]}, port {self.place[1]}: {fault}"
                if waited > PATIENCE:
                    raise GivesUp(f"no answer {whose}") from None
                if silent and waited > SILENCE:
                    silent = False
                    say(f"no answer yet {whose}. It is tried again, for a minute in all")
            time.sleep(PAUSE)

    def told(self, line: bytes) -> bytes:
        """The answer over the current connection, or over a new one if there is none."""
        if self.socket is None or self.stream is None:
            self.socket = connected(self.place, self.token, self.context, PATIENCE, self.greeted)
            self.stream = self.socket.makefile("rb")
        self.socket.sendall(line)
        answer = self.stream.readline(self.most)
        if len(answer) == self.most and not answer.endswith(b"\n"):
            raise GivesUp(f"no auction answers at {self.place[0]}, port {self.place[1]}: the answer has more than {self.most - 1} bytes")
        if answer == TAKEN_AWAY + b"\n":
            raise GivesUp(f"the token isn't known any more ({TAKEN_AWAY.decode()}): if the last line is a command, it may be accepted or not")
        if not answer.endswith(b"\n") or answer[:-1] in ENDS:
            raise ConnectionError(answer.decode("latin-1").strip() or "it ends the connection")
        return answer

    def greeted(self, says_mock: bool) -> None:
        """Says so if the auction is a mock. No line that was meant for a mock is sent to another auction, nor the other way round."""
        if self.is_mock not in (None, says_mock):
            raise GivesUp(f"the auction {'was a mock, and this one is none' if self.is_mock else 'is a mock by now'}: no line is sent to it")
        if says_mock and self.is_mock is None:
            say(NOTICE)
        self.is_mock = says_mock

    def hang_up(self) -> None:
        """Ends the connection, if there is one."""
        if self.stream:
            self.stream.close()
        if self.socket:
            self.socket.close()
        self.socket = self.stream = None


def shown(answer: bytes) -> bytes:
    """An answer as it may be written to standard output: a terminal obeys some characters, so they are escaped for one."""
    return f"{plain(answer[:-1].decode('latin-1'))}\n".encode() if os.isatty(STANDARD_OUTPUT) else answer


def follow(client: Client) -> None:
    """Writes a front's news (docs/ROUNDS.md), each once, until the auction is over. A GivesUp says that the front has none."""
    number = 0
    while True:
        answer = client.ask(b"EVENT %d\n" % number)
        words = answer.split(b" ")
        if answer == b"EVENT -\n":
            time.sleep(PACE)
        elif len(words) > 3 and words[0] == b"EVENT" and words[1].isdigit():
            write_all(STANDARD_OUTPUT, shown(answer))
            number = int(words[1])
            if words[3] == b"OVER":
                return
        else:
            raise GivesUp(f"EVENT is answered {plain(answer[:-1].decode('latin-1'))}: this front has no news")


def read_words() -> argparse.Namespace:
    words = parser(__doc__)
    words.add_argument("place", type=read_place, metavar="PORT|HOST:PORT", help="the auction's address")
    add_options(words)
    words.add_argument("--news", action="store_true", help="write a front's news as they come, and read no standard input")
    given = words.parse_args()
    look_at_options(words, given)
    if given.news and not given.token:
        words.error("--news goes with --token")
    return given


@from_shell
def main() -> int:
    """Reads the arguments, and returns the status."""
    given = read_words()
    try:
        client = Client(given.place)
        if given.token:
            client = Client(given.place, read_token(given.token, given.name), context_of(given))
        if given.news:
            follow(client)
            return 0
        for line in lines_of(STANDARD_INPUT):
            if not line.endswith(b"\n"):
                raise GivesUp("the last line has no LF and may be half a line: it isn't sent")
            write_all(STANDARD_OUTPUT, shown(client.ask(line)))
    except BrokenPipeError:
        return 1
    except (GivesUp, OSError, UnicodeDecodeError) as fault:
        say(fault)
        return 1
    return 0


if __name__ == "__main__":
    sys.exit(main())
