"""What a front gives the process of its page: the parts of configuration, tokens and certificate that the page needs, as the front has them
(docs/BOARD.md).

So front and page agree when these are read again. A page that is started meanwhile gets nothing that the front doesn't have.
"""
import json
import os
from dataclasses import dataclass

from hpb.file import read_head, read_image
from hpb.front.certificate import Certificate
from hpb.front.config import Config
from hpb.front.core.information import Information
from hpb.front.information import read_information, table_of
from hpb.front.rights import Role, role_of
from hpb.front.terms import Terms
from hpb.front.tokens import Tokens
from hpb.rules.tree import Tree, tree_of

PIECE = 65_536


@dataclass(frozen=True)
class Given:
    """The page's settings. `host_names` are the names by which it may be requested, and `viewers` is the most viewers of each name."""

    tree: Tree
    roles: dict[str, Role]
    host_names: list[str]
    viewers: int
    log_lines_per_second: int
    tokens: Tokens
    certificate: Certificate | None
    information: Information | None = None


def written(config: Config, terms: Terms) -> bytes:
    """The page's settings as bytes, from a configuration and the terms in force."""
    certificate = terms.certificate
    assert config.board
    fields = {
        "file": config.file,
        "roles": {name: role.shown() for name, role in config.roles.items()},
        "host_names": config.board.names,
        "viewers": terms.limits.connections,
        "log_lines_per_second": config.log.lines_per_second,
        "tokens": terms.tokens.text(config.roles),
        "certificate": [certificate.chain.decode("latin-1"), certificate.key.decode("latin-1")] if certificate else None,
        "information": table_of(config.information) if config.information else None,
    }
    return json.dumps(fields).encode()


def read(data: bytes) -> Given:
    fields = json.loads(data)
    tree = tree_of(read_head(read_image(fields["file"], is_quiet=False)).definition)
    roles = {name: role_of(shown) for name, shown in fields["roles"].items()}
    information = None
    if fields["information"] is not None:
        information, roles = read_information(fields["information"], roles)
    chain, key = fields["certificate"] or ("", "")
    return Given(
        tree,
        roles,
        fields["host_names"],
        fields["viewers"],
        fields["log_lines_per_second"],
        Tokens(fields["tokens"], roles),
        Certificate.of(chain.encode("latin-1"), key.encode("latin-1")) if chain else None,
        information,
    )


def in_memory(data: bytes) -> int:
    """Puts data into a file without a name, and returns its descriptor, which a child process may inherit."""
    file = os.memfd_create("front")
    try:
        while data:
            data = data[os.write(file, data) :]
    except BaseException:
        os.close(file)
        raise
    return file


def read_all(file: int) -> bytes:
    """Reads such a file, and closes it."""
    data = b""
    while part := os.pread(file, PIECE, len(data)):
        data += part
    os.close(file)
    return data
