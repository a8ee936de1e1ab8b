"""Makes the drawings of docs/pictures. With `--check`, it compares them with those that are there."""
import sys
from collections.abc import Callable
from pathlib import Path
from typing import Final

from drawings import bid, checkpoint, crash, file, owners, storeys

_PICTURES: Final = Path(__file__).resolve().parents[1] / "pictures"
DRAWINGS: Final[dict[str, Callable[[], str]]] = {
    "storeys": storeys.drawn,
    "bid": bid.drawn,
    "file": file.drawn,
    "checkpoint": checkpoint.drawn,
    "crash": crash.drawn,
    "owners": owners.drawn,
}


def main(words: list[str]) -> int:
    """Returns the status: 0, or 1 if a drawing isn't as it would be made, or 2 if the arguments are wrong."""
    if words not in ([], ["--check"]):
        print("usage: docs/make-drawings [--check]", file=sys.stderr)
        return 2
    is_good = True
    for name, drawn in DRAWINGS.items():
        path = _PICTURES / f"{name}.svg"
        made = drawn()
        if not words:
            path.write_text(made, encoding="utf-8")
        elif not path.is_file() or path.read_text(encoding="utf-8") != made:
            print(f"docs/pictures/{name}.svg isn't what docs/make-drawings makes")
            is_good = False
    return 0 if is_good else 1


if __name__ == "__main__":
    sys.exit(main(sys.argv[1:]))
