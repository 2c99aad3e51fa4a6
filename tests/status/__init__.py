"""What the tests of the status page share."""
