# Build steps of the runs, said once: sourced by them from the repository's top folder.
# shellcheck shell=bash
out=target/tests
archive=target/staticlib/libc_api.a
mkdir -p "$out"
# where Rust's own installer puts it
command -v rustc >/dev/null || PATH=$PATH:${HOME:-}/.cargo/bin

# The archive, proved first.
build_archive() {
    rm -f "$archive"
    mkdir -p "$(dirname "$archive")"
    (cd crates/c_api && rt lib) >"$out/staticlib.log" 2>&1 || { tail -20 "$out/staticlib.log"; return 1; }
    cp crates/c_api/out/libc_api.a "$archive"
}
# The archive, where there is none that is newer than all it is made of: the crates, their folders (of a file taken away) and their list.
need_archive() {
    if [ ! -e "$archive" ] || [ -n "$(find crates crates.txt -name out -prune -o -newer "$archive" -print -quit)" ]; then build_archive; fi
}
# A C program over the archive: source, program, more libraries.
c() { gcc -O2 -Wall -Wextra -I include "$1" "$archive" -o "$2" "${@:3}"; }
# Anything in Rust, without packages.
rust() { rustc --edition 2021 -O -L "$out" "$@"; }
# A Rust library: name, source, more.
library() { rust --crate-type rlib --crate-name "$1" "${@:2}" -o "$out/lib$1.rlib"; }

build_second() { library second tests/second/src/lib.rs; }
build_border() { library border tests/border/lib.rs -L target/staticlib -l static=c_api; }
# Needs second and border.
build_damage() { rust --extern second --extern border tests/damage/main.rs -o "$out/damage"; }
