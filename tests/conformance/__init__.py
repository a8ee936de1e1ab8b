"""Clients in several languages, driven by lines, with a real server that is killed."""
