# tests/count.sh: how the scripts beside it count what passed and what failed. They source it before they
# begin. `work` is a folder of the run's own, which is gone when it ends.

passed=0
failed=0
work=$(mktemp -d) || exit 1
trap 'rm -rf "$work"' EXIT

# say_end: the last line, and the exit status.
say_end() {
    printf '%d passed, %d failed\n' "$passed" "$failed"
    ((failed == 0 && passed > 0)) && exit 0
    exit 1
}

# fail NAME [WHAT]: one failure.
fail() {
    failed=$((failed + 1))
    printf 'FAIL %s%s\n' "$1" "${2:+: $2}"
}
