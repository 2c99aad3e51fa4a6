"""Tests of several machines: the rule, nodes behind one broker, and how long they are available.

- `nodes`: machines with a node each
- `replication_world`: bridges on several machines that share a stream, each event a step
"""
