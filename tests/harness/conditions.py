"""The conditions under which a program is started: user, folder, environment, limits, network, libraries loaded before."""

from __future__ import annotations

import os
import resource
from collections.abc import Callable, Mapping
from dataclasses import dataclass, field, replace
from pathlib import Path

from harness.namespaces import Network
from harness.users import User

KIB = 1024
# The variables that a program inherits from the tests.
KNOWN = ("PATH", "HOME", "TMPDIR", "LANG", "PYTHONPATH", "PYTHONDONTWRITEBYTECODE")


@dataclass(frozen=True)
class Conditions:
    """The state of a process before its program begins. By default only the environment is changed: it is small."""

    user: User | None = None
    folder: Path | None = None
    environment: Mapping[str, str] = field(default_factory=dict)
    # The soft and hard limit of each, by the numbers of `resource`, in its own units.
    limits: Mapping[int, int] = field(default_factory=dict)
    libraries: tuple[Path, ...] = ()
    network: Network | None = None
    # The last action in the child before the program begins.
    last: Callable[[], None] | None = None

    def as_user(self, user: User) -> Conditions:
        """The same, as another user."""
        return replace(self, user=user)

    def within(self, folder: Path) -> Conditions:
        """These, in another folder."""
        return replace(self, folder=folder)

    def with_stack(self, kib: int) -> Conditions:
        """The same, with `ulimit -s`, in KiB."""
        return replace(self, limits={**self.limits, resource.RLIMIT_STACK: kib * KIB})

    def with_memory(self, kib: int) -> Conditions:
        """The same, with `ulimit -v`, in KiB."""
        return replace(self, limits={**self.limits, resource.RLIMIT_AS: kib * KIB})

    def with_limit(self, which: int, most: int) -> Conditions:
        """The same, with a limit of `resource`, in its own units."""
        return replace(self, limits={**self.limits, which: most})

    def with_library(self, library: Path, **environment: str) -> Conditions:
        """The same, with a library that is loaded before the C library, and the variables that it reads."""
        return replace(self, libraries=(*self.libraries, library), environment={**self.environment, **environment})

    def variables(self) -> dict[str, str]:
        """The whole environment."""
        known = {name: os.environ[name] for name in KNOWN if name in os.environ}
        preloaded = {"LD_PRELOAD": " ".join(map(str, self.libraries))} if self.libraries else {}
        return {**known, **preloaded, **self.environment}

    @property
    def preparation(self) -> Callable[[], None] | None:
        """The child's actions between fork and exec, or None: a child without any starts faster."""
        return self.prepare if self.network or self.limits or self.user or self.last else None

    def prepare(self) -> None:
        """Sets all this in the child, between fork and exec."""
        if self.network is not None:
            self.network.enter()
        for which, most in self.limits.items():
            resource.setrlimit(which, (most, most))
        if self.user is not None:
            self.user.become()
        if self.last is not None:
            self.last()


NORMAL = Conditions()
