"""A host: one run of the program after another over a partition's journals."""
