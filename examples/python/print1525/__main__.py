"""The program's words, over standard input: python3 -m print1525 pages --as svg < SCRIPT."""

import sys

from . import Refused, answer


def main() -> int:
    try:
        made = answer(sys.argv[1:], sys.stdin.buffer.read())
    except Refused as why:
        sys.stdout.buffer.write(why.text)
        print(why, file=sys.stderr)
        return 2
    except MemoryError:
        return 3
    sys.stdout.buffer.write(made.text)
    if made.stop:
        print(made.stop, file=sys.stderr)
    return made.status


if __name__ == "__main__":
    sys.exit(main())
