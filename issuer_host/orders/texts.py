"""The texts at an order socket: what it is asked, and how its replies begin.

The command's start is most of what an order takes. So this module and `client` import next to nothing: with `re`,
`typing`, `socket` and `argparse` the command takes several times as long.
"""
# What the socket is asked: whether a host runs, and an order.
HOST, ORDER = "host", "order"
# What asks whether a partition's host answers, and how the replies begin.
PROBE, ANSWERS, NO_ANSWER = "probe", "answers", "no answer"
# How a reply to an order's line begins.
DONE, BEFORE, NOT_DONE = "done", "before", "not"
