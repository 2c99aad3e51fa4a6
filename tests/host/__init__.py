"""Checks of what supervises a host, in each form that has one: gateway, bridge and node."""
