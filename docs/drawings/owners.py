"""Front, server, page, record and report: which process owns which file, and the way of a command through them."""
from typing import Final

from drawings.canvas import MARGIN, WIDTH, Box, Canvas

_CLIENTS: Final = Box(MARGIN, 96, 124, 70)
_BROWSERS: Final = Box(MARGIN, 392, 124, 60)
_NETWORK: Final = Box(222, 60, 260, 420)
_FRONT: Final = Box(242, 96, 220, 104)
_SERVER: Final = Box(242, 268, 220, 78)
_PAGE: Final = Box(242, 392, 220, 70)
_FILES, _WIDE = 548, WIDTH - MARGIN - 548
_TOKENS: Final = Box(_FILES, 60, _WIDE, 46)
_RECORD: Final = Box(_FILES, 122, _WIDE, 62)
_LOG: Final = Box(_FILES, 200, _WIDE, 46)
_AUCTION: Final = Box(_FILES, 276, _WIDE, 62)
_OLD_RECORD: Final = Box(MARGIN, 532, 130, 46)
_REPLAY: Final = Box(184, 532, 190, 62)
_COPY: Final = Box(412, 532, 104, 46)
_REPORT: Final = Box(554, 532, 230, 62)


def drawn() -> str:
    """The drawing."""
    canvas = Canvas("owners", "Front, server, page, record and report, with the owner of each file", (
        "Clients connect to the front by TLS and a token. The front alone reads the tokens and writes the record and the log. It puts a command "
        "beside the record, tells it to hpb serve, which alone writes the auction's file, then writes the record, then answers. Browsers get a "
        "page of a process that the front starts; it asks the server and writes nothing. Front, server and page are in a network of their own. "
        "tools/replay reads the record, and tools/report a copy of the auction's file."))
    canvas.text(MARGIN, 32, "A file has one owner, which alone writes it. A number says when a command passes there.", "soft")
    canvas.box(_NETWORK, "faint", "dashed", 8)
    canvas.text(_NETWORK.left + 12, _NETWORK.top + 22, "one user, a network of its own", "small soft")
    _processes(canvas)
    _files(canvas)
    _ways(canvas)
    _readers(canvas)
    canvas.legend(616, (("thread", "process"), ("kept", "file"), ("plain", "outside of the machine"), ("test", "only reads")))
    return canvas.drawn(644)


def _processes(canvas: Canvas) -> None:
    canvas.card(_CLIENTS, "clients", "of bidders and of the auctioneer")
    canvas.card(_BROWSERS, "browsers", "each says a token")
    canvas.card(_FRONT, "tools/front", "knows a client by its token, lets it send its own lines alone, starts server and page", "thread")
    canvas.card(_SERVER, "hpb serve", "judges commands, makes them durable, answers", "thread")
    canvas.card(_PAGE, "the page", "asks SHOW, NODE and WHO, and never sends a command", "thread")


def _files(canvas: Canvas) -> None:
    canvas.card(_TOKENS, "tokens, certificate, key", "the front reads them", "kept")
    canvas.card(_RECORD, "auction.record", "each command and its sender; beside it those that are on their way", "kept")
    canvas.card(_LOG, "auction.record.log", "the front's, bounded, proves nothing", "kept")
    canvas.card(_AUCTION, "auction.hpb", "the server's, under its lock: the auction itself, but not who sent what", "kept")


def _ways(canvas: Canvas) -> None:
    """The arrows. Those of a command have numbers."""
    canvas.arrow([(_CLIENTS.right, 118), (_FRONT.left, 118)])
    canvas.text((_CLIENTS.right + _NETWORK.left) / 2 - 2, 112, "TLS, line", "small middle")
    canvas.arrow([(_FRONT.left, 152), (_CLIENTS.right, 152)], "kept")
    canvas.badge(_CLIENTS.right + 16, 152, "5")
    canvas.text((_CLIENTS.right + _NETWORK.left) / 2 + 16, 146, "OK", "small middle")
    canvas.arrow([(_TOKENS.left, 106 - 4), (_FRONT.right, 102)])
    canvas.arrow([(_FRONT.right, 138), (_RECORD.left, 138)], "kept")
    canvas.badge(496, 138, "1")
    canvas.arrow([(_FRONT.right, 170), (_RECORD.left, 170)], "kept")
    canvas.badge(496, 170, "4")
    canvas.arrow([(_FRONT.right, 190), (506, 190), (506, 223), (_LOG.left, 223)])
    canvas.arrow([(312, _FRONT.bottom), (312, _SERVER.top)], "kept")
    canvas.badge(303, 234, "2")
    canvas.text(328, 238, "a session for each name", "small soft")
    canvas.arrow([(_SERVER.right, _AUCTION.centre), (_AUCTION.left, _AUCTION.centre)], "kept")
    canvas.badge(496, _AUCTION.centre, "3")
    canvas.arrow([(352, _PAGE.top), (352, _SERVER.bottom)])
    canvas.text(362, 373, "a session of its own", "small soft")
    canvas.arrow([(_BROWSERS.right, 422), (_PAGE.left, 422)])
    canvas.text((_BROWSERS.right + _NETWORK.left) / 2, 416, "TLS, token", "small middle")
    told = ("put beside the record, synced", "sent to the server", "durable in the file", "entered in the record, synced", "its answer leaves")
    for number, words in enumerate(told):
        behind = canvas.badge(_FILES, 368 + number * 23, str(number + 1))
        canvas.text(behind, 372 + number * 23, words, "small")


def _readers(canvas: Canvas) -> None:
    canvas.line([(MARGIN, 496), (WIDTH - MARGIN, 496)], "dashed faint")
    canvas.text(MARGIN, 518, "afterwards, or in between, from copies", "small soft")
    canvas.card(_OLD_RECORD, "auction.record", "a copy", "kept")
    canvas.card(_COPY, "auction.hpb", "a copy", "kept")
    canvas.card(_REPLAY, "tools/replay", "holds the record against the file, shows who bid what", "test")
    canvas.card(_REPORT, "tools/report", "makes a page: result, sums that show it, what a close would do", "test")
    canvas.arrow([(_OLD_RECORD.right, _COPY.centre), (_REPLAY.left, _COPY.centre)])
    canvas.arrow([(_COPY.left, _COPY.centre), (_REPLAY.right, _COPY.centre)])
    canvas.arrow([(_COPY.right, _COPY.centre), (_REPORT.left, _COPY.centre)])
