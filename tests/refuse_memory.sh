#!/usr/bin/env bash
# tests/refuse_memory.sh PROGRAM [FILE..]: each request for memory refused in turn (refuse_memory.py).
exec python3 "$(dirname "$0")/refuse_memory.py" "$@"
