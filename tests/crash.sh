#!/usr/bin/env bash
# tests/crash.sh PROGRAM [FILE..]: the program crashed at each call on its journals in turn (crash.py).
exec python3 "$(dirname "$0")/crash.py" "$@"
