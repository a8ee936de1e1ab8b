"""The program seen from outside: scripts, streams, files, sessions and documents, each compared with what the documents say.

Each test that compares much has a lie beside it: a stand-in for the program that does something else, for which the test must fail.
"""
