"""Work on cards: an operator's orders and accounts' declines, put to a host among its requests."""
