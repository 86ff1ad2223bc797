#!/bin/sh
# Kills the program while it signs from a store in a file, starts it twice at once, traces its calls, fails them and fills the disk. Builds nothing; tests/kill.py says what must hold, and with which words it is asked for less.
exec python3 -B "$(dirname "$0")/kill.py"
