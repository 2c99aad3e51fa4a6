"""How many shards, cards, lines and bytes there may be."""

MAX_SHARDS = 16
MAX_KEY_SETS = 16
MAX_CARDS = 4096
MAX_TABLE_ROWS = 64
MAX_CALLERS = 16
MAX_CONFIGURATION_BYTES = 4_194_304
# An ATC so far below its card's greatest is refused.
WINDOW = 256

# Bytes of a request line without its newline: no longer line has one of the forms.
MAX_LINE_BYTES = 2051
# Bytes of a feed line, its newline included.
MAX_FEED_LINE_BYTES = 524
# Bytes of a message that a broker takes: a stream's messages are within them.
MAX_MESSAGE_BYTES = 65_536
# A run ends past so many lines or bytes of what it reads line by line.
RUN_LINES = 1_048_576
RUN_BYTES = 2_147_483_648

# Bytes that an option spells in hexadecimal.
MAX_OPTION_BYTES = 1024
