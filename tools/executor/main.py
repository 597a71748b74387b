#!/usr/bin/env python3
"""A second executor of the session language: what the program must print for a session, and its exit status.

python3 tools/executor/main.py < session.json

It was written from the rules of the language alone, apart from the program and its proofs and without a look at either,
so that a difference between the two shows a fault in one of them or a gap in the rules. It wants memory exactly where an
object would be larger than 256 MiB, and has no faults of reading and writing. Words are as the program's; none stands for
`run`.
"""

import sys
import threading

from session import run_words

DEEPEST = 1000000
STACK = 1 << 29


def deeply(work):
    """What the work gives, done where recursion may go deep."""
    results = []
    sys.setrecursionlimit(DEEPEST)
    threading.stack_size(STACK)
    thread = threading.Thread(target=lambda: results.append(work()))
    thread.start()
    thread.join()
    return results[0] if results else None


def main():
    words = sys.argv[1:] or ["run"]
    ending = deeply(lambda: run_words(words, sys.stdin.buffer.read))
    if ending is None:
        return 1
    sys.stdout.write(ending.text)
    if ending.said:
        print(ending.said, file=sys.stderr)
    return ending.status


if __name__ == "__main__":
    sys.exit(main())
