"""What tries and measures bridges and nodes behind private brokers, for tests, `bench/` and commands of `deploy/`."""
