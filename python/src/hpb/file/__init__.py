"""An auction's file, read and never written: head, frames and slots, in both layouts and both formats of states."""
from hpb.file.frames import Batch
from hpb.file.head import Head, read_head
from hpb.file.layout import Layout
from hpb.file.opening import read_image
from hpb.file.reading import AuctionFile, auctions_in, read_auction
from hpb.file.slots import Checkpoint
from hpb.file.states import state_of

__all__ = ["AuctionFile", "Batch", "Checkpoint", "Head", "Layout", "auctions_in", "read_auction", "read_head", "read_image", "state_of"]
