"""An independent program of the whole host: `python3 tests/oracle serve --config FILE --requests FILE --journal NAME`,
and so on.

It takes the words of the program, writes what the program has to write, keeps journals as it keeps them, and ends with
its status. One caller answers, whatever `--callers` says.
"""
import io
import os
import sys

sys.path[0] = os.path.dirname(os.path.dirname(os.path.abspath(__file__)))
from oracle.command_line import run


def main() -> None:
    try:
        words = [word.encode("utf-8", "strict").decode() for word in sys.argv[1:]]
    except UnicodeEncodeError:
        words = []
    out = io.BytesIO()
    status = run(words, out)
    try:
        sys.stdout.buffer.write(out.getvalue())
        sys.stdout.buffer.flush()
    except OSError:
        sys.exit(4)
    sys.exit(status)


if __name__ == "__main__":
    main()
