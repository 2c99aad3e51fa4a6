"""Tests of the sources: the graph and contracts of the crates, and the shape of the package issuer_host.

- `contracts`: the contracts of a crate's functions
- `specs`: the definitions of the crates' specs
- `package_shape`: which subpackage imports which, and the names and sizes of classes, for `tests/lint`
"""
