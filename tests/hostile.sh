#!/usr/bin/env bash
# tests/hostile.sh PROGRAM [OPTION..]: the program on inputs that are meant to harm it (hostile.py).
exec python3 "$(dirname "$0")/hostile.py" "$@"
