"""A file is served while calls of the program to the system fail, hang or are left out."""
