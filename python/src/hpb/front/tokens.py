"""The tokens of a front: which name has which token, and the file of tokens (docs/FRONT.md)."""
import contextlib
import hashlib
import hmac
import os
import re
import secrets
import stat
from collections.abc import Collection, Iterator
from dataclasses import dataclass

from hpb.front.change import Busy, InTheWay, NewFile, changing
from hpb.front.faults import Wrong

TOKEN = re.compile(r"[!-~]{16,128}")
LEAST_TOKEN = 16
# The two forms in a line: a token's digest, or the word for a name that has no token on purpose.
DIGEST = re.compile(r"sha256:([0-9a-f]{64})")
NONE = "-"
TOKEN_BYTES = 24
# A line as a change of the file writes it.
CHANGED = re.compile(rb"[a-z0-9_]{1,16} (-|sha256:[0-9a-f]{64})")
# A token's id is so many digits of its digest: enough to tell tokens apart, and no help to sign in.
ID_DIGITS = 12


@dataclass(frozen=True)
class Token:
    """The name that has the token, and the token's SHA-256."""

    name: str
    digest: bytes

    @property
    def id(self) -> str:
        return self.digest.hex()[:ID_DIGITS]


class Tokens:
    """All tokens, and the name of each. Only their digests are kept."""

    def __init__(self, text: str, names: Collection[str]) -> None:
        self.known: list[Token] = []
        mentioned = set()
        for place, line in enumerate(text.splitlines(), 1):
            if is_entry(line):
                mentioned.add(self.add(line.split(), names, f"tokens, line {place}"))
        for name in names:
            if name not in mentioned:
                raise Wrong(f"tokens: {name} has none; a line `{name} {NONE}` says that this is meant")

    def add(self, words: list[str], names: Collection[str], where: str) -> str:
        """Adds a line's token, and returns its name."""
        if len(words) != 2 or words[0] not in names:
            raise Wrong(f"{where}: it isn't a name of the configuration and its token")
        if words[1] != NONE:
            token = Token(words[0], digest_in(words[1], where))
            if token.digest in (known.digest for known in self.known):
                raise Wrong(f"{where}: this token stands there twice")
            self.known.append(token)
        return words[0]

    def text(self, names: Collection[str]) -> str:
        """The text of a file with these tokens, each by its digest."""
        lines = [f"{token.name} sha256:{token.digest.hex()}" for token in self.known] + [f"{name} {NONE}" for name in self.silent(names)]
        return "".join(f"{line}\n" for line in lines)

    def find(self, said: bytes) -> Token | None:
        """Finds the token that a client has sent. The time is the same for each known token, and however many characters are right."""
        digest, found = digest_of(said), None
        for token in self.known:
            if hmac.compare_digest(digest, token.digest):
                found = token
        return found

    def name_of(self, said: bytes) -> str | None:
        token = self.find(said)
        return token.name if token else None

    def silent(self, names: Collection[str]) -> list[str]:
        """The names without a token."""
        return [name for name in names if name not in {token.name for token in self.known}]


def is_entry(line: str) -> bool:
    return bool(line.strip()) and not line.startswith("#")


def digest_in(word: str, where: str) -> bytes:
    """The digest that a line has, or the digest of the token that it has."""
    if found := DIGEST.fullmatch(word):
        return bytes.fromhex(found[1])
    if not TOKEN.fullmatch(word):
        raise Wrong(f"{where}: a token has 16 to 128 characters, no spaces among them")
    return digest_of(word.encode())


def digest_of(token: bytes) -> bytes:
    return hashlib.sha256(token).digest()


@dataclass(frozen=True)
class TokenFile:
    """The file of tokens. It is changed as a whole, so a reader gets either the old file or the new one."""

    path: str
    names: Collection[str]

    def make(self) -> None:
        """Makes a new file with a token for each name."""
        with self.change(self.path) as new:
            new.write("".join(f"{name} {new_token()}\n" for name in self.names))
            new.take_free_place()

    def tokens(self) -> Tokens:
        return Tokens(read_private(self.path), self.names)

    def add(self, name: str) -> tuple[Token, str]:
        """Adds a token for a name, and returns it in clear. It is shown this once, since the file has only its digest."""
        if name not in self.names:
            raise Wrong(f"tokens: {name} is no name of the configuration")
        text = new_token()
        token = Token(name, digest_of(text.encode()))
        with self.change(self.real_path) as new:
            kept = [line for line in self.lines() if line.split() != [name, NONE]]
            self.replace(new, [*kept, f"{name} sha256:{token.digest.hex()}"])
        return token, text

    def revoke(self, id: str) -> Token:
        """Removes the token with this id. If it was the last one of its name, the file says that the name has none."""
        with self.change(self.real_path) as new:
            lines = self.lines()
            token = self.token_of(id, lines)
            kept = [line for line in lines if not is_entry(line) or not has_digest(line, token.digest)]
            if not any(is_entry(line) and line.split()[0] == token.name for line in kept):
                kept.append(f"{token.name} {NONE}")
            self.replace(new, kept)
        return token

    def token_of(self, id: str, lines: list[str]) -> Token:
        """The one of these lines whose token has this id."""
        found = [token for token in Tokens("\n".join(lines), self.names).known if token.id == id]
        if len(found) != 1:
            raise Wrong(f"tokens: {'no token has' if not found else 'several tokens have'} the id {id}; `tokens list` shows all")
        return found[0]

    def lines(self) -> list[str]:
        """The lines of the file, after checking it."""
        text = read_private(self.path)
        Tokens(text, self.names)
        return text.splitlines()

    def replace(self, new: NewFile, lines: list[str]) -> None:
        """Puts a new file in the place of the old one, with the same owner."""
        new.write("".join(f"{line}\n" for line in lines), os.stat(self.path))
        new.take_place()

    @property
    def real_path(self) -> str:
        """The file to which a link leads: a change replaces that one, and the link stays."""
        return os.path.realpath(self.path)

    @contextlib.contextmanager
    def change(self, path: str) -> Iterator[NewFile]:
        """The new file of a change at this path. Read the old file within it, because nobody else changes the file meanwhile. A Wrong says why no change
        is possible."""
        try:
            with changing(path, self.is_rest) as new:
                yield new
        except (Busy, InTheWay) as fault:
            raise Wrong(f"tokens: {fault}") from None
        except OSError as fault:
            raise Wrong(f"tokens: {fault.filename2 or fault.filename or self.path}: {fault.strerror or fault}") from None

    def is_rest(self, data: bytes) -> bool:
        """Whether a killed change may have left this: it is empty, or has only lines of the file and lines with digests. If somebody
        prepared the file by hand, it has other tokens."""
        try:
            with open(self.path, "rb") as file:
                known = set(file.read().splitlines())
        except FileNotFoundError:
            known = set()
        return all(line in known or CHANGED.fullmatch(line) for line in data.splitlines())


def has_digest(line: str, digest: bytes) -> bool:
    word = line.split()[1]
    return word != NONE and digest_in(word, "tokens") == digest


def new_token() -> str:
    return secrets.token_urlsafe(TOKEN_BYTES)


def read_private(path: str) -> str:
    """The text of a private file. It has to belong to this user or root, and nobody else may read it. Else a Wrong says so."""
    try:
        with open(os.open(path, os.O_RDONLY | os.O_NONBLOCK | os.O_CLOEXEC), encoding="utf-8") as file:
            status = os.fstat(file.fileno())
            if not stat.S_ISREG(status.st_mode):
                raise Wrong(f"{path}: it is no regular file")
            if status.st_mode & 0o077 or status.st_uid not in (os.geteuid(), 0):
                raise Wrong(f"{path}: others may read it; `chmod 600` it, and own it")
            return file.read()
    except OSError as fault:
        raise Wrong(f"{path}: {fault.strerror}") from None
    except UnicodeDecodeError:
        raise Wrong(f"{path}: it is no text") from None
