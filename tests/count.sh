# shellcheck shell=bash
# Sourced by each suite: its counts, and its last line 'N passed, M failed'.
passed=0
failed=0

pass() {
    passed=$((passed + 1))
}

# fail MESSAGE...: one failure, and a line that says what failed
fail() {
    failed=$((failed + 1))
    echo "error: $*"
}

# try WHAT COMMAND...: one test, passed where the command succeeds
try() {
    local what=$1
    shift
    if "$@"; then pass; else fail "$what"; fi
}

# The last line; the status is 0 only where something passed and nothing failed.
finish() {
    echo "$passed passed, $failed failed"
    [ "$failed" -eq 0 ] && [ "$passed" -gt 0 ]
}
