"""What builds, proves and tests the program from its sources. An installed copy doesn't have it."""
