# shellcheck shell=bash
# Sourced at the top of the repository by whatever links the static library. Afterwards ISOLATED_LIB_DIR is exported and
# names the folder of libisolated.a by its absolute path; where it named none before, tools/library builds it first.
# Where the folder holds no library, a line says so and the status is 1; who is handed that folder builds nothing again.
if [ -z "${ISOLATED_LIB_DIR:-}" ]; then
    ISOLATED_LIB_DIR=target/lib
    # A build that fails leaves no archive, which the test below finds.
    bash tools/library
fi
ISOLATED_LIB_DIR=$(realpath -m -- "$ISOLATED_LIB_DIR")
export ISOLATED_LIB_DIR
if [ ! -f "$ISOLATED_LIB_DIR/libisolated.a" ]; then
    echo "error: no static library: $ISOLATED_LIB_DIR holds no libisolated.a"
    return 1
fi
