#!/bin/sh
# Holds the tables of crates/letters to each other, and to the answers of the Rust release that they name, where cargo is at
# hand and of that release; of another release it says which characters differ, and nothing fails. Last line: 'N passed, M failed'.
. "$(dirname "$0")/lib/start.sh"

if ! command -v cargo >/dev/null 2>&1 || ! command -v cc >/dev/null 2>&1; then
    echo 'letters: LEFT OUT, no cargo here, or no C compiler, by which cargo links: that the tables are what a release says'
    echo '0 passed, 0 failed'
    exit
fi

letters() {
    cargo run --offline --quiet --manifest-path oracle/Cargo.toml -p letters -- "$@"
}

# In a copy of this release's tables numbers are changed, as sed says: what the program then says, and its status.
changed() {
    mkdir -p "$work/src" "$work/specs"
    letters "$work"
    sed -i "$1" "$work/src/table.rt" ${2-"$work/specs/Table.antt"}
    letters --check "$work" >"$work/said"
    status=$?
    sed "s|$work/||" "$work/said"
    echo "status $status"
}

holds 'the tables of crates/letters are not what `cargo run -p letters` in oracle/ makes of them' letters --check

release=$(rustc --version | cut -d ' ' -f 1,2)
differ="and this is $release: 2 characters differ: U+3000 to U+3001"
check 'a table that is wrong' "letters: the table of letters is of $release, $differ
status 1" "$(changed 's/\<12288\>/12289/g')"
check 'a table of another release' "letters: the table of letters is of rustc 1.0.0, $differ
status 0" "$(changed "s/$release/rustc 1.0.0/; s/\<12288\>/12289/g")"
check 'a table that only the source has' 'letters: specs/Table.antt is not what src/table.rt makes of it
status 1' "$(changed 's/\<12288\>/12289/g' '')"

echo "$passed passed, $failed failed"
[ "$failed" -eq 0 ]
