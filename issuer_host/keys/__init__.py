"""Keys on their way: check values, components, key blocks, and keys that a token wraps."""
