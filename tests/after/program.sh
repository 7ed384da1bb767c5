#!/bin/sh
# Makes the program of README in a folder of its own, by README's lines as they stand there, and runs it; and runs the
# programs that docs/MIGRATING.md begins with. It is run after the library is built: HOSTPATH_LIB names its folder. Last
# line: 'N passed, M failed'.
. "$(dirname "$0")/../lib/start.sh"
cd .. || exit 2 # start.sh goes to the folder above this one
. tests/lib/blocks.sh
top=$PWD
source=${ORACLE_SOURCE:-../shared/docs/src}
HOSTPATH_LIB=$(cd "$(oracle/library)" && pwd)
export HOSTPATH_LIB CARGO_NET_OFFLINE=true

# A block of README's section on records.
shown() {
    block "$top/README.md" 'Keep records' "$1"
}

# The folder has what README's commands name, and nothing else.
made() {
    mkdir -p "$work/own/target" && cd "$work/own" && ln -s "$top/oracle" "$top/rust" . || return 1
    shown 1 | sh >/dev/null || return 1
    shown 2 >>target/records/Cargo.toml
    shown 3 >target/records/src/main.rs
    shown 4 | sh
}

check 'what the program of README prints' "$(shown 5)" "$(made 2>"$work/said" || cat "$work/said")"
relative=$(cd "$HOSTPATH_LIB/.." && HOSTPATH_LIB=./$(basename "$HOSTPATH_LIB") cargo run --quiet --manifest-path "$work/own/target/records/Cargo.toml" 2>&1)
check 'what it prints where HOSTPATH_LIB is a relative path' "$(shown 5)" "$relative"
missing=$(cd "$work" && HOSTPATH_LIB=nowhere cargo run --quiet --manifest-path own/target/records/Cargo.toml 2>&1)
holds "no word of HOSTPATH_LIB where the archive is missing: $missing" test "${missing#*HOSTPATH_LIB}" != "$missing"

printed=$(block docs/MIGRATING.md 'One program, before and after' 3)
check 'what the program after prints' "$printed" "$(cargo run --quiet --manifest-path rust/hostpath/Cargo.toml --example after 2>&1)"
if [ -d "$source" ]; then
    ORACLE_SOURCE=$(cd "$source" && pwd)
    export ORACLE_SOURCE
    check 'what the program before prints' "$printed" "$(cargo run --quiet --manifest-path oracle/Cargo.toml -p ibc-core-host-types --example before 2>&1)"
else
    echo 'program: LEFT OUT, no Rust sources here (ORACLE_SOURCE names their folder): the program before'
fi

echo "$passed passed, $failed failed"
[ "$failed" -eq 0 ]
