"""The checks of `tests/program/durable`: the order of its calls on files, and what a failure or a kill leaves.

- `watch.c`: the library that logs the program's calls, makes some fail, and kills it before a call
- `probe.c`: a program that makes each watched call by each of its names
- `watching`: builds that library, runs the program under it, and reads its log
- `disk`: what the calls leave on a disk, and what a power failure may leave of it
- `scenes`: the configurations, lines and journals of the runs
- `tally`: what all checks share: their words, counts, and what they print of a failure
- `linking`: which calls a program can make, by the names that it takes from the C library; checks of these
- `page`: whether docs/assurance/premises.md names the checks, and only what is there
- `ordering`, `faults`, `kills`, `files`: the other checks, each a function of its name
"""
