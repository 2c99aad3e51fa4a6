"""The state of all partitions as one view: a page on the loopback, and the same in a terminal."""
