#!/bin/sh
# Holds docs/MIGRATING.md to both sides: every public item of the original's files has a row, where they are at hand, no row
# is of anything else, what takes an item's place is in rust/hostpath, and the two programs are the examples before and after.
# ORACLE_SOURCE names the folder of the original. Last line: 'N passed, M failed'.
. "$(dirname "$0")/lib/start.sh"
. tests/lib/blocks.sh
source=${ORACLE_SOURCE:-../shared/docs/src}/ibc-core/ics24-host/types/src

fail() {
    echo "migrating: $1"
    failed=$((failed + 1))
}

# What stands in backquotes in a column of the tables, one to a line.
column() {
    grep '^| `' docs/MIGRATING.md | cut -d '|' -f "$1" | grep -o '`[^`]*`' | tr -d '`' | sort -u
}

column 2 >"$work/rows"
if [ -d "$source" ]; then
    awk '
        /^pub (const|struct|enum|fn) / { sub(/[:(<{;].*/, "", $3); print $3; if ($2 == "enum") within = $3; next }
        /^impl / && / for / { sub(/^impl /, ""); sub(/ *\{.*/, ""); print; next }
        /^impl / { within = $2; next }
        /^}/ { within = ""; next }
        /^    [A-Z]/ && within != "" { sub(/[^A-Za-z].*/, "", $1); print within "::" $1 }
        /^    pub fn / { sub(/[(<].*/, "", $3); print within "::" $3 }' \
        "$source"/path.rs "$source"/validate.rs "$source"/identifiers/*.rs | sort -u >"$work/items"
    passed=$((passed + $(comm -12 "$work/items" "$work/rows" | wc -l)))
    comm -23 "$work/items" "$work/rows" >"$work/missing"
    while read -r item; do fail "no row for $item"; done <"$work/missing"
    comm -13 "$work/items" "$work/rows" >"$work/unknown"
    while read -r item; do fail "a row for $item, which is no public item"; done <"$work/unknown"
else
    echo 'migrating: LEFT OUT, no Rust sources here (ORACLE_SOURCE names their folder): that every item has a row'
fi

# Each word of a name, as Path and read of `Path::read`, and each field behind it.
sed 's://.*::' rust/hostpath/src/*.rs >"$work/crate"
column 3 | tr -c 'A-Za-z0-9_\n' '\n' | sort -u | grep . >"$work/words"
while read -r word; do
    if grep -qw "$word" "$work/crate"; then passed=$((passed + 1)); else fail "$word is not in rust/hostpath"; fi
done <"$work/words"

number=0
for example in oracle/host/examples/before.rs rust/hostpath/examples/after.rs; do
    number=$((number + 1))
    block docs/MIGRATING.md 'One program, before and after' "$number" >"$work/program"
    holds "its program $number is not $example" cmp "$work/program" "$example"
done

echo "$passed passed, $failed failed"
[ "$failed" -eq 0 ]
