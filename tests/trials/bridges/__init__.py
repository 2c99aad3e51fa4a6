"""What tries and measures the service, with a broker of its own. No installed copy has it."""
