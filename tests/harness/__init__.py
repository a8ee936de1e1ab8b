"""The part that all tests share: programs and the conditions under which they start, servers, clients, fronts, file systems, users.

Nothing here depends on a single test's aim. Each value is typed, each wait has a limit of time, and everything that is started ends
with its test.
"""
