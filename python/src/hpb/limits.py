"""The limits of docs/RULES.md and docs/PROTOCOL.md."""
import re
from typing import Final

NAME: Final = re.compile(r"[a-z0-9_]{1,16}")

MOST_STEP: Final = 1_000_000
MOST_PERCENT: Final = 50
LEAST_STAGE: Final = 50
MOST_STAGE: Final = 100
MOST_STAGES: Final = 4
MOST_WAIVERS: Final = 20
MOST_NODES: Final = 127
MOST_LICENCES: Final = 64
MOST_LEVELS: Final = 8
MOST_UNITS: Final = 1_000_000
MOST_OPENING: Final = 10_000_000_000
MOST_BIDDERS: Final = 64
MOST_BIDDER_UNITS: Final = MOST_LICENCES * MOST_UNITS
MOST_BID: Final = 1_000_000_000_000
MOST_COMMANDS: Final = 1_000_000

MOST_DEFINITION_BYTES: Final = 65_536
MOST_NESTING: Final = 127
MOST_LINE_BYTES: Final = 128
MOST_TICKET: Final = 2**32 - 1
MOST_AMOUNT: Final = 2**64 - 1

# How many lines of one connection may wait for their answers: as many as `hpb serve` makes durable together.
MOST_IN_FLIGHT: Final = 16
