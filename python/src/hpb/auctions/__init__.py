"""Many auctions: a folder with a folder for each, and the commands for them (packaging/README.md)."""
