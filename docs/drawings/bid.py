"""A bid's way from the socket to the disk and back, hop by hop as docs/ARCHITECTURE.md counts them."""
from typing import Final

from drawings.canvas import MARGIN, WIDTH, Box, Canvas

# The lanes: the left edge of each, and its width.
_SOCKET: Final = Box(MARGIN, 0, 90, 0)
_SESSION: Final = Box(156, 0, 164, 0)
_SHARED: Final = Box(352, 0, 92, 0)
_COMMITTER: Final = Box(482, 0, 188, 0)
_DISK: Final = Box(712, 0, 72, 0)
_HEADS_AT, _HEAD_HEIGHT, _FIRST, _STEP = 64, 44, 128, 60
_LANES: Final = (
    (_SOCKET, "socket", "", "plain"),
    (_SESSION, "session's thread", "hpb_server, hpb_serve", "thread"),
    (_SHARED, "between", "no lock", "plain"),
    (_COMMITTER, "committer's thread", "hpb_house", "thread"),
    (_DISK, "file", "hpb_disk", "kept"),
)
_TURNS: Final = (
    ("write of the body of the batch's frame", "write", "torn"),
    ("sync: the body is whole, its gate closed", "sync", "kept"),
    ("write of the gate: the batch has landed", "write", "torn"),
    ("sync: acknowledged, its answers leave", "sync", "kept"),
)


def drawn() -> str:
    """The drawing."""
    canvas = Canvas("bid", "The way of a bid from the socket to the disk and back", (
        "The session's thread reads and parses the line and posts a letter into its ring, then sleeps. The committer's thread gathers letters. "
        "Under the lock it offers them to the engine, which judges them. Under the lock again, and once for each, it makes four turns: a write "
        "of the body, a sync, a write of the gate, a sync. In the last of these five it publishes on the board. Without the lock it wakes the "
        "session, whose thread views the board, takes its answer and writes OK into the socket."))
    canvas.paragraph(
        Box(MARGIN, MARGIN, WIDTH - 2 * MARGIN, 34),
        "Time goes down. A number is that of a hop in the table below. Five times the committer takes the lock; between two of them it is free, "
        "and a step of a checkpoint may come.", "soft")
    end = _row(12.05)
    for lane, name, under, kind in _LANES:
        _lane(canvas, Box(lane.left, _HEADS_AT, lane.width, end - _HEADS_AT), (name, under), kind)
    _way_in(canvas)
    _under_the_lock(canvas)
    _way_back(canvas)
    canvas.legend(end + 14, (("lock", "lock held"), ("torn", "write"), ("kept", "sync"), ("thread dashed", "sleeps")))
    return canvas.drawn(end + 42)


def _row(number: float) -> float:
    return _FIRST + number * _STEP


def _lane(canvas: Canvas, lane: Box, names: tuple[str, str], kind: str) -> None:
    canvas.line([(lane.middle, lane.top + _HEAD_HEIGHT), (lane.middle, lane.bottom)], "dashed faint")
    head = canvas.box(Box(lane.left, lane.top, lane.width, _HEAD_HEIGHT), kind)
    canvas.text(head.middle, head.top + (18 if names[1] else 27), names[0], "name middle")
    if names[1]:
        canvas.text(head.middle, head.top + 35, names[1], "small soft middle")


def _hop(canvas: Canvas, lane: Box, row: tuple[float, float], hops: str, text: str) -> Box:
    """A step in a lane, from one row to another. The numbers of its hops stand before its text."""
    box = canvas.box(Box(lane.left, _row(row[0]), lane.width, (row[1] - row[0]) * _STEP - 8), "plain")
    _numbered(canvas, box, hops, text)
    return box


def _numbered(canvas: Canvas, box: Box, hops: str, text: str) -> None:
    left = canvas.badge(box.left + 6, box.top + 16, hops)
    canvas.paragraph(Box(left, box.top + 8, box.right - left - 4, box.height - 8), text, "small")


def _across(canvas: Canvas, start: tuple[float, float], end: float, text: str, looks: str = "") -> None:
    """A level arrow, with a word above it."""
    canvas.arrow([start, (end, start[1])], looks)
    canvas.text((start[0] + end) / 2, start[1] - 5, text, f"small middle {looks}".strip())


def _way_in(canvas: Canvas) -> None:
    asked = _hop(canvas, _SESSION, (0, 1), "1–3", "reads and parses the line, once")
    _across(canvas, (_SOCKET.middle, asked.centre), asked.left, "BID x 1 a 100")
    posted = _hop(canvas, _SESSION, (1, 2), "4", "posts a letter, rings the bell, sleeps")
    ring = canvas.box(Box(_SHARED.left, posted.top, _SHARED.width, posted.height), "plain")
    canvas.label(ring, "ring of 16 letters, bell", "small")
    canvas.arrow([(posted.right, posted.centre), (ring.left, posted.centre)])
    canvas.box(Box(_SESSION.middle - 5, _row(2), 10, 7.75 * _STEP), "thread", "dashed", 5)
    gathered = _hop(canvas, _COMMITTER, (1, 2), "5", "gathers up to 64 letters, at most 16 of a seat")
    canvas.arrow([(ring.right, ring.centre), (gathered.left, ring.centre)])


def _locked(canvas: Canvas, first: float, height: float) -> Box:
    """A period with the lock held, `height` rows high."""
    return canvas.box(Box(_COMMITTER.left - 10, _row(first), _COMMITTER.width + 20, height * _STEP - 8), "lock")


def _under_the_lock(canvas: Canvas) -> None:
    offer = "compares the front, sees that the board has room, makes a batch; the engine judges each letter, once"
    _numbered(canvas, _locked(canvas, 2.1, 1.45), "6–9", offer)
    for number, (text, call, kind) in enumerate(_TURNS):
        is_last = number == len(_TURNS) - 1
        box = _locked(canvas, 3.65 + 1.05 * number, 2.45 if is_last else 0.95)
        at = box.top + 22
        canvas.text(box.left + 8, box.top + 19, f"turn {number + 1}", "small name")
        canvas.paragraph(Box(box.left + 56, box.top + 8, box.width - 60, box.height - 10), text, "small")
        canvas.label(canvas.box(Box(_DISK.left, at - 13, _DISK.width, 26), kind), call, "small")
        canvas.arrow([(box.right, at), (_DISK.left, at)], kind)
        if is_last:
            below = Box(box.left, box.top + 46, box.width, box.height - 46)
            _numbered(canvas, below, "10–12", "the batch is committed and published: the engine's auction, then one of the board's two copies, take it in")


def _way_back(canvas: Canvas) -> None:
    woken = _hop(canvas, _COMMITTER, (9.35, 10.15), "13", "rings the seat's bell")
    board = canvas.box(Box(_SHARED.left, _row(8.0), _SHARED.width, 1.1 * _STEP), "plain")
    canvas.label(board, "board: two copies of the auction", "small")
    canvas.arrow([(_COMMITTER.left - 10, board.centre), (board.right, board.centre)])
    canvas.arrow([(woken.left, woken.centre), (_SESSION.middle + 5, woken.centre)])
    canvas.text((_SHARED.left + _SESSION.right) / 2, woken.centre - 6, "wakes", "small middle")
    taken = _hop(canvas, _SESSION, (10.15, 11.15), "14–18", "views the board, takes its answer")
    canvas.arrow([(board.middle, board.bottom), (board.middle, taken.centre), (taken.right, taken.centre)])
    sent = _hop(canvas, _SESSION, (11.15, 11.95), "19, 20", "writes the OK")
    _across(canvas, (sent.left, sent.centre), _SOCKET.middle, "OK 1")
