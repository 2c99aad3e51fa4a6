"""Tests of a bridge, its orders and declines, and the broker.

- `bridges`: a bridge by pipes that tests start, ask and kill
- `issuers`: a small issuer for tests of bridges
- `masking`: a folder in which commands are given card numbers, and what they wrote is searched for them
"""
