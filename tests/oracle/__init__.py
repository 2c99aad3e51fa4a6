"""A second implementation of the whole host, from the public standards and docs/formats.

It states each fact of the host again, and takes none from `issuer_host`: what the tests compare with has to be
independent.
"""
