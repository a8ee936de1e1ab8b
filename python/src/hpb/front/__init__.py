"""The front: it knows those who connect by a token, asks the server for them, and keeps a record (docs/FRONT.md)."""
