"""Shows an auction while it runs: follows the server, describes the auction, and serves a page about it (docs/BOARD.md)."""
