"""Trials of power cuts: a job on a disk whose power is cut, and the conditions that the rest of the file has to meet.

A trial is a story of some cuts of one file, given by a seed. Each cut begins with the file that the one before left. If any promise
is broken, AssertionError is raised.
"""
