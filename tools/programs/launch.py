#!/usr/bin/env python3
"""launch.py SETTINGS COMMAND..: becomes COMMAND after the settings, words joined by commas: close0, close1 (that descriptor is closed),
deaf (a write to a pipe that nobody reads fails, where else the system ends the program), roomN (a file takes N bytes and no more)."""

import os
import resource
import signal
import sys

settings, command = sys.argv[1].split(","), sys.argv[2:]
# python starts with both ignored
signal.signal(signal.SIGPIPE, signal.SIG_IGN if "deaf" in settings else signal.SIG_DFL)
signal.signal(signal.SIGXFSZ, signal.SIG_IGN)
for setting in settings:
    if setting.startswith("close"):
        os.close(int(setting[5:]))
    if setting.startswith("room"):
        resource.setrlimit(resource.RLIMIT_FSIZE, (int(setting[4:]),) * 2)
os.execvp(command[0], command)
