"""A partition's records on several machines, in the order of a stream of the broker."""
