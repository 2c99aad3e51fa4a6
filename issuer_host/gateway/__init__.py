"""A gateway between switches that speak ISO 8583 and the hosts: a message in, a request line, an answer, a response."""
