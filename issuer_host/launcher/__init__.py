"""The launcher, `./issuer`: it runs the proved program, or a build without proofs, and says in words what went wrong.

What builds or proves is in `issuer_host.building`, which an installed copy doesn't have: `./issuer` hands it in.
"""
