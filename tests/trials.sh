#!/bin/sh
# Holds the wrong answers on record to the functions that they are of: each edit of trials/CRATE.edits, and each of must-fail/
# whose first line names a function, is of a public function of its crate; each public function has two, which differ, and no
# title stands twice; the place of each edit is found; and they are those that bin/contracts prints.
# And docs/CONTRACTS.md lists the edits of must-fail/.
# That the prover refuses them is for trials/run. Last line: 'N passed, M failed'.
. "$(dirname "$0")/lib/start.sh"
. trials/edits.sh

fail() {
    echo "trials: $1"
    failed=$((failed + 1))
}

# The public functions, and their wrong answers as FUNCTION: WRONG ANSWER. An exported call has none.
bin/contracts | grep -E '^\| `[a-z_]+::' | grep -v '^| `hostpath::' | awk -F '|' -v functions="$work/functions" '{
    gsub(/[` *]/, "", $2)
    print $2 >functions
    for (i = 6; i < NF; i++) {
        gsub(/^ +| +$/, "", $i)
        print $2 ": " $i
    }
}' | sort >"$work/printed"

for file in trials/*.edits; do basename "$file" .edits; done >"$work/crates"
sed 's/::.*//' "$work/functions" >>"$work/crates"
: >"$work/edits"
for crate in $(sort -u "$work/crates"); do
    lay_out "$crate" "$work/records/$crate"
    for record in "$work/records/$crate"/*; do
        [ -f "$record" ] || continue
        title=$(title_of "$record")
        echo "$title" >>"$work/edits"
        case $title in "$crate"::*) ;; *) fail "in the edits of $crate: $title" ;; esac
        grep -qxF "${title%%: *}" "$work/functions" || fail "of no public function: $title"
        place_edits "$record" "$crate" >"$work/places" 2>&1 || fail "nothing to edit, or no single place: $title"
    done
done

sort "$work/edits" >"$work/titles"
uniq -d "$work/titles" >"$work/twice"
while read -r title; do fail "more than one edit: $title"; done <"$work/twice"
while read -r function; do
    check "wrong answers of $function" 2 "$(grep -c "^$function: " "$work/titles")"
done <"$work/functions"
comm -3 "$work/titles" "$work/printed" >"$work/parted"
while read -r title; do fail "on record, or printed by bin/contracts, and not both: $title"; done <"$work/parted"
passed=$((passed + $(comm -12 "$work/titles" "$work/printed" | grep -c '')))

sed -n '/^## Edits that must fail/,$s,^| \([a-z_]*\) | `\([a-z0-9_]*\)` |.*,crates/\1/must-fail/\2.edit,p' docs/CONTRACTS.md | sort >"$work/listed"
ls crates/*/must-fail/*.edit | sort >"$work/there"
while read -r edit; do
    if grep -qxF "$edit" "$work/listed"; then passed=$((passed + 1)); else fail "not in the table of edits that must fail: $edit"; fi
done <"$work/there"
comm -23 "$work/listed" "$work/there" >"$work/unknown"
while read -r edit; do fail "in the table of edits that must fail, and not there: $edit"; done <"$work/unknown"

echo "$passed passed, $failed failed"
[ "$failed" -eq 0 ]
