"""A form under a steady load for long: what it runs, what asks it, what is written of it, and what that comes to."""
