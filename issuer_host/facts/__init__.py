"""The facts about the program, each stated once, and what every part of the package needs.

Only `tests/oracle` states these facts again: it is the independent program that the tests compare with.
"""
