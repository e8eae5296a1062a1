#!/usr/bin/env python3
"""Starts the command. Whatever fails ends with 2, also where something of the checkout is missing: 1, which Python gives then, means findings."""

import os
import sys

try:
    import rovinuset

    status = rovinuset.main(*sys.argv[1:])
except BaseException as error:  # the command itself lets nothing out
    status = 2
    try:
        os.write(2, f"rovinuset: this checkout is not whole: {error}\n".encode("utf-8", "replace"))
    except OSError:
        pass
os._exit(status)  # at once: what could not be printed is not tried again
