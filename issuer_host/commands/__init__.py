"""The commands of operators, and the bridge: each is a module whose `main` is the command.

`order` is in `orders`, `issuer-run` in `start`, `node` and `rejoin` in `replication`, `gateway` in `gateway`.
"""
