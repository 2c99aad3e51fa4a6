"""The checks of `tests/deployment/deploy`: what deploy/ has around the program, where no broker is needed.

- `running`: runs a command of deploy/, says what a refusal has to say, and has a host's folder and its words
- `starts`: the refusals of deploy/issuer-run, and the starts that it lets pass; deploy/look
- `partitions`: cards cut into partitions, added to and moved with their journals; orders
- `following`: what deploy/follow writes of journals that grow, are truncated, shortened or replaced
- `nodes`: what a node of several machines begins with, positions beside journals, and journals that it truncates
- `order_machines`: orders by the files of nodes, and which machine takes each line
- `backups`: copies of journals that are loaded, and those that are kept
- `log_lines`: what services say in their logs of troubles that last
- `shipped_examples`: the examples of the package, and what units say of files that are missing
- `service`: what deploy/ knows of the program; the units and their exposure, the alert rules and the dashboard
- `package`: the Debian package, twice the same, what it has and what it doesn't

Each has a list CHECKS. A check needs nothing that another one leaves; the first that looks at the package makes it.
"""
