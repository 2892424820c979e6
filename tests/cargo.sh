# shellcheck shell=bash
# Sourced after count.sh, at the top of the repository, by each suite that tests a Rust crate. Afterwards $room is a folder that is removed
# when the suite ends, and cargo writes to target/rust.
room=$(mktemp -d) || exit 2
trap 'rm -rf "$room"' EXIT
export CARGO_TARGET_DIR="$PWD/target/rust"

# cargo_tests ARGUMENT...: runs `cargo test` with these arguments and adds up what it reports; no test at all, or a failure that is not
# reported, counts as one failure. What cargo printed stands in $room/cargo afterwards.
cargo_tests() {
    local status good=0 bad=0 line
    cargo test --offline --no-fail-fast "$@" >"$room/cargo" 2>&1 </dev/null
    status=$?
    cat "$room/cargo"
    while IFS= read -r line; do
        if [[ $line =~ ^test\ result:\ [a-zA-Z]+\.\ ([0-9]+)\ passed\;\ ([0-9]+)\ failed ]]; then
            good=$((good + BASH_REMATCH[1])) bad=$((bad + BASH_REMATCH[2]))
        fi
    done <"$room/cargo"
    if [ "$bad" -eq 0 ] && { [ "$status" -ne 0 ] || [ "$good" -eq 0 ]; }; then bad=1; fi
    [ "$bad" -eq 0 ] || echo "error: $bad failed in: cargo test $*"
    passed=$((passed + good))
    failed=$((failed + bad))
}

# cargo_clippy MANIFEST: one test, that clippy finds nothing in any of a crate's targets, its pedantic lints among them
cargo_clippy() {
    if cargo clippy --version >/dev/null 2>&1; then
        try "clippy has something to say of $1" cargo clippy --offline --quiet --all-targets --manifest-path "$1" -- --no-deps -D warnings -D clippy::pedantic
    else
        fail "cargo clippy is not installed, so that $1 is not linted"
    fi
}
