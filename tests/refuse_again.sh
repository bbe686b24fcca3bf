#!/usr/bin/env bash
# tests/refuse_again.sh PROGRAM [FILE..]: lines that found no memory, given once more (refuse_again.py).
exec python3 "$(dirname "$0")/refuse_again.py" "$@"
