"""Three machines on one, a broker and a node on each: what can happen to them, and what has to hold then."""
