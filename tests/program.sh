# shellcheck shell=bash disable=SC2034
# Sourced at the top of the repository by whatever tries the program. Afterwards `program` and `outcome` name target/bin/isolated and
# target/bin/outcome, built and no older than their sources; ISOLATED_PROGRAM and ISOLATED_OUTCOME name others to try in their place.
# Where they can't be built a line says so and the status is 1.
program=${ISOLATED_PROGRAM:-$PWD/target/bin/isolated}
outcome=${ISOLATED_OUTCOME:-$PWD/target/bin/outcome}
if [ -z "${ISOLATED_PROGRAM:-}" ] || [ -z "${ISOLATED_OUTCOME:-}" ]; then
    # ./isolated builds both where a source is newer; with no words it is refused then.
    ./isolated </dev/null 2>&1 >/dev/null | cat
    if [ "${PIPESTATUS[0]}" -ne 1 ]; then
        echo "error: the program is not built"
        return 1
    fi
fi
