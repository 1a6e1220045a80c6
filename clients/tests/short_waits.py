"""short_waits.py: shortens what the Python module waits for, so that a test meets the ends of many waits."""
import sys

import mqserve

# Where the module is a package, they stand in a part of it.
PLACE = sys.modules.get("mqserve._waits")


def shorten(**seconds):
    """ANSWER_S: for an answer; HELLO_S, SIDE_S: for a connection; LATE_S, LAST_S: after a call's moment."""
    for name, value in seconds.items():
        if PLACE:
            setattr(PLACE, name, value)
        else:
            setattr(mqserve, f"_{name}", value)
