"""The broker: its queues, the connection to it, and what goes through it."""
