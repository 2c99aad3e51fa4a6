"""Configurations as a person writes them: all faults with their places, and what a host would accept in silence."""
