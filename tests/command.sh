#!/bin/sh
# The command at the root: tests/command.py has the checks.
LC_ALL=C
export LC_ALL
exec python3 -B "$(dirname "$0")/command.py"
