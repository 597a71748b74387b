#!/usr/bin/env python3
"""Says why ./session would refuse the script of a file, before anything is built: the program's word and what is at fault.

refusal.py FILE ends with the status by which the second executor in tools refuses the script, or with 0.
"""

import contextlib
import os
import sys

sys.path.append(os.path.join(os.path.dirname(os.path.abspath(__file__)), ".."))

import check_script  # noqa: E402  which puts tools/executor on the path
from main import deeply  # noqa: E402
from session import read_session  # noqa: E402


def main(path):
    with open(path, "rb") as file:
        data = file.read(check_script.LONGEST + 1)
    refusal = deeply(lambda: read_session(data))[1]
    if refusal is None:
        return 0
    print(refusal.said, file=sys.stderr)
    with contextlib.redirect_stdout(sys.stderr):
        check_script.main(path)
        print("session: so says the second executor in tools, written apart from the program: nothing was built or run")
    return refusal.status


if __name__ == "__main__":
    sys.exit(main(sys.argv[1]))
