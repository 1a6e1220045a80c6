#!/usr/bin/env python3
"""demo/client.py ADDRESS KEY: runs each line of standard input as Python, beside the names of clients/python/mqserve, and prints
what it gives or raises, and then an empty line."""

import os
import pathlib
import sys

sys.dont_write_bytecode = True
sys.path.insert(0, str(pathlib.Path(__file__).resolve().parent.parent / "clients" / "python"))
import mqserve  # noqa: E402


def main(address, key):
    os.umask(0o022)
    mqserve.use(address, key)
    names = dict(vars(mqserve))
    for line in sys.stdin:
        try:
            exec(compile(line, "<demo>", "single"), names)
        except Exception as error:
            print(f"{type(error).__name__}: {error}")
        print(flush=True)


if __name__ == "__main__":
    main(*sys.argv[1:])
