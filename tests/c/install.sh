# shellcheck shell=bash
# Sourced by tests/c/run: tools/library and ./install in a small repository of their own, where stand-ins take the place of the kit, of the proved
# programs and of tools/run. `room` is the folder to work in.

repository=${room:?}/repository
commands=$room/commands
built=$repository/target/lib/libisolated.a

# The repository, with an archive and programs that an earlier build left; and a folder of all commands needed but rt.
fresh() {
    local name
    rm -rf "$repository" "$commands" "$room/log" "$room/rt.log" "$room/there" "$room/prefix"
    mkdir -p "$repository"/{tools,include,docs,crates/one/src} "$repository"/crates/{ffi_c,isolated,outcome}/out "$repository"/target/{lib,bin} "$commands"
    cp install "$repository/install"
    cp tools/library tools/programs "$repository/tools"
    cp include/isolated.h "$repository/include/isolated.h"
    cp docs/refusals.tsv "$repository/docs/refusals.tsv"
    echo 'the run part' >"$repository/tools/run"
    echo 'a source' >"$repository/crates/one/src/source"
    echo 'ffi_c staticlib:' >"$repository/crates.txt"
    echo old library >"$repository/crates/ffi_c/out/libffi_c.a"
    for name in lib/libisolated.a bin/isolated bin/outcome; do echo "old $name" >"$repository/target/$name"; done
    for name in bash env dirname readlink realpath rm mkdir cp mv find sed touch chmod cat flock; do ln -s "$(command -v "$name")" "$commands/$name"; done
}

# The kit's stand-in: notes what it is asked for in which crate and builds it there, unless the command given here ends it before.
with_kit() {
    cat >"$commands/rt" <<END
#!/usr/bin/env bash
name=\${PWD##*/}
echo "\$* \$name" >>"$room/rt.log"
${1:-}
case \$1 in
lib) echo new library >out/lib\$name.a ;;
run) echo new \$name >out/\$name ;;
esac
END
    chmod +x "$commands/rt"
}

# makes STATUS COMMAND...: whether the command, with no other commands than those of the folder, ends with this status; room/log has what it says
makes() {
    local wanted=$1 status
    shift
    PATH=$commands env -u ISOLATED_LIB_DIR -u DESTDIR "$@" >"$room/log" 2>&1 </dev/null
    status=$?
    if [ "$status" -ne "$wanted" ]; then
        echo "    status $status and not $wanted: $*"
        sed 's/^/    /' "$room/log"
        return 1
    fi
}

holds() { [ "$(cat "$1")" = "$2" ]; }
absent() { [ ! -e "$built" ] && [ ! -e "$repository/crates/ffi_c/out/libffi_c.a" ]; }
older() { touch -d 2000-01-01 "$@"; }
# Nothing is asked of the kit, or exactly this.
asked() { if [ $# -eq 0 ]; then [ ! -e "$room/rt.log" ]; else [ "$(cat "$room/rt.log")" = "$1" ]; fi; }

library_is_built() {
    fresh && with_kit && (cd / && makes 0 "$repository/tools/library") && holds "$built" 'new library' && asked 'lib ffi_c'
}
library_fails() {
    fresh && with_kit 'echo half a library >out/libffi_c.a; exit 1' && makes 1 "$repository/tools/library" && absent &&
        grep -q 'rt lib failed in crates/ffi_c' "$room/log"
}
library_is_not_written() { fresh && with_kit 'exit 0' && makes 1 "$repository/tools/library" && absent; }
library_without_kit() { fresh && makes 1 "$repository/tools/library" && absent && grep -q 'rt is not on the PATH' "$room/log"; }
library_with_a_word() { fresh && with_kit && makes 1 "$repository/tools/library" ffi && asked; }

programs_are_built() {
    fresh && with_kit && (cd / && makes 0 "$repository/tools/programs") && holds "$repository/target/bin/isolated" 'new isolated' &&
        holds "$repository/target/bin/outcome" 'new outcome' && asked 'run isolated
run outcome'
}
programs_fail() { fresh && with_kit 'exit 1' && makes 1 "$repository/tools/programs" && grep -q 'rt run failed in crates/isolated' "$room/log" && asked 'run isolated'; }
programs_are_not_written() { fresh && with_kit 'exit 0' && makes 1 "$repository/tools/programs" && grep -q 'has left no crates/isolated/out/isolated' "$room/log"; }
programs_with_a_word() { fresh && with_kit && makes 1 "$repository/tools/programs" isolated && asked; }

# What was installed below a folder: the files, who may run them, and their contents.
installed_below() {
    local files
    files=$(cd "$1" && find . -type f -printf '%m %P\n' | LC_ALL=C sort -k 2)
    [ "$files" = "755 bin/isolated
644 include/isolated.h
644 lib/libisolated.a
644 lib/pkgconfig/isolated.pc
755 libexec/isolated/isolated
755 libexec/isolated/outcome
644 share/isolated/refusals.tsv" ] && cmp -s "$1/include/isolated.h" include/isolated.h && cmp -s "$1/share/isolated/refusals.tsv" docs/refusals.tsv &&
        holds "$1/bin/isolated" 'the run part' && holds "$1/lib/libisolated.a" "$2" && holds "$1/libexec/isolated/isolated" "$3" &&
        holds "$1/libexec/isolated/outcome" "$4"
}
newly_installed_below() { installed_below "$1" 'new library' 'new isolated' 'new outcome'; }
old_installed_below() { installed_below "$1" 'old lib/libisolated.a' 'old bin/isolated' 'old bin/outcome'; }
nothing_below() { [ -z "$(find "$1" -type f 2>/dev/null)" ]; }

install_without_a_word() { fresh && makes 2 "$repository/install" && grep -q 'usage: ./install PREFIX' "$room/log"; }
install_to_a_relative_path() {
    fresh && makes 2 "$repository/install" here && grep -q 'usage: ./install PREFIX' "$room/log" && [ ! -e "$repository/here" ]
}
install_with_two_words() { fresh && makes 2 "$repository/install" "$room/there" here && grep -q 'usage: ./install PREFIX' "$room/log"; }
install_builds_what_is_missing() {
    fresh && with_kit && rm "$repository"/target/*/* && rmdir "$repository/target/lib" &&
        (cd / && makes 0 "$repository/install" "$room/there") && newly_installed_below "$room/there" && asked 'lib ffi_c
run isolated
run outcome' && [ "$(grep -c "^installed $room/there/" "$room/log")" -eq 7 ]
}
install_builds_what_is_old() {
    fresh && with_kit && older "$repository"/target/*/* && makes 0 "$repository/install" "$room/there" && newly_installed_below "$room/there"
}
install_builds_the_programs_alone() {
    fresh && with_kit && older "$repository/target/bin/outcome" && makes 0 "$repository/install" "$room/there" && asked 'run isolated
run outcome'
}
# An unchanged program is not written again by the kit; it counts as built then all the same.
install_builds_once() {
    fresh && with_kit 'exit 0' && echo kept >"$repository/crates/isolated/out/isolated" && echo kept >"$repository/crates/outcome/out/outcome" && older "$repository/target/bin/outcome" && makes 0 "$repository/install" "$room/there" && rm "$room/rt.log" &&
        makes 0 "$repository/install" "$room/there" && asked
}
# What rt keeps, and where it stands, may be newer than what was built of it.
install_past_what_rt_keeps() {
    fresh && touch -d '1 hour' "$repository"/crates/{ffi_c,isolated,outcome}{,/out{,/kept}} "$repository/crates" && makes 0 "$repository/install" "$room/there" &&
        old_installed_below "$room/there"
}
install_needs_no_kit_for_what_is_built() { fresh && makes 0 "$repository/install" "$room/there" && old_installed_below "$room/there"; }
install_without_kit() {
    fresh && rm "$repository/target/bin/outcome" && makes 1 "$repository/install" "$room/there" && nothing_below "$room/there" &&
        grep -q 'rt is not on the PATH' "$room/log"
}
install_after_a_failed_build() {
    fresh && with_kit 'exit 1' && older "$built" && makes 1 "$repository/install" "$room/there" && nothing_below "$room/there" &&
        fresh && with_kit 'exit 1' && older "$repository/target/bin/isolated" && makes 1 "$repository/install" "$room/there" && nothing_below "$room/there"
}
install_of_a_lent_library() {
    fresh && with_kit && rm "$built" && echo lent >"$repository/target/libisolated.a" &&
        (cd "$repository/target" && makes 0 env ISOLATED_LIB_DIR=. "$repository/install" "$room/there") &&
        holds "$room/there/lib/libisolated.a" lent && asked
}
install_of_no_lent_library() {
    fresh && with_kit && makes 1 env ISOLATED_LIB_DIR="$room/nowhere" "$repository/install" "$room/there" && nothing_below "$room/there" && asked
}
# PREFIX is in the room too, so that an install that ignored DESTDIR would write nowhere else.
install_below_destdir() {
    fresh && mkdir "$room/there" && (cd "$room" && makes 0 env DESTDIR=there "$repository/install" "$room/prefix/") &&
        old_installed_below "$room/there$room/prefix" && nothing_below "$room/prefix"
}
install_replaces_in_one_move() {
    fresh && makes 0 "$repository/install" "$room/there" && ln "$room/there/lib/libisolated.a" "$room/there/held" && echo newer >"$built" &&
        makes 0 "$repository/install" "$room/there" && holds "$room/there/lib/libisolated.a" newer && holds "$room/there/held" 'old lib/libisolated.a'
}
# A folder stands where the last file belongs.
install_that_cannot_write() {
    fresh && mkdir -p "$room/there/bin/isolated" && makes 1 "$repository/install" "$room/there" && nothing_below "$room/there" &&
        grep -q 'nothing is installed' "$room/log"
}

for case in library_is_built library_fails library_is_not_written library_without_kit library_with_a_word \
    programs_are_built programs_fail programs_are_not_written programs_with_a_word \
    install_without_a_word install_to_a_relative_path install_with_two_words install_builds_what_is_missing install_builds_what_is_old \
    install_builds_the_programs_alone install_builds_once install_past_what_rt_keeps install_needs_no_kit_for_what_is_built install_without_kit install_after_a_failed_build \
    install_of_a_lent_library install_of_no_lent_library install_below_destdir install_replaces_in_one_move install_that_cannot_write; do
    try "$case: not as it should be" "$case"
done
