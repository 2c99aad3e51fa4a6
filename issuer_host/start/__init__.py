"""The careful start: it refuses to run the program where a start would forget what was decided."""
