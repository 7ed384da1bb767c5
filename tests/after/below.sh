#!/bin/sh
# Runs the texts of docs/RULES.md that lie below one another, and those that come near, by the built askpath: each is what
# the page says, and those below another have a row in the proved table of cases. It is run after the program is built.
# Last line: 'N passed, M failed'.
. "$(dirname "$0")/../lib/start.sh"
cd .. || exit 2 # start.sh goes to the folder above this one
if [ ! -x target/bin/askpath ]; then
    echo 'below: LEFT OUT, the program is not built: what lies below a path'
    echo '0 passed, 0 failed'
    exit
fi
cases=crates/demands/specs/Cases.antt

# What askpath answers to a text, which has to stand on the page.
answer() {
    grep -qF "\`$1\`" "$work/page" || echo "not on the page: $1"
    printf '%s\n' "$1" | bin/askpath
}

# The first text and then `/` begin the second, and the pair has a row in the table.
lies_below() {
    case $2 in
    "$1"/*) grep -qF "∷ above (bytes \"$1\") " "$cases" && grep -qF "(bytes \"$2\")" "$cases" ;;
    *) false ;;
    esac
}

sed -n '/^## What lies below a path/,/^## Books/p' docs/RULES.md >"$work/page"
sed -n 's/^| \([0-9]*\) | `\([^`]*\)` | `\([^`]*\)` | `\([^`]*\)` |$/\1 \2 \3 \4/p' "$work/page" >"$work/rows"
check 'the kinds that stand above an upgrade path' '1 2 3 10' "$(cut -d ' ' -f 1 "$work/rows" | tr '\n' ' ' | sed 's/ $//')"
while read -r kind path client state; do
    check 'a path with something below it' "0 $kind E $path" "$(answer "$path")"
    check 'an upgrade path below it' "0 18 E $client" "$(answer "$client")"
    check 'another below it' "0 19 E $state" "$(answer "$state")"
    holds "$client does not lie below $path, or the table of cases has no such row" lies_below "$path" "$client"
    holds "$state does not lie below $path, or the table of cases has no such row" lies_below "$path" "$state"
done <"$work/rows"

check 'a port of another spelling' '0 10 E ports/055' "$(answer ports/055)"
check 'what lies below it as a text alone' '0 18 L ports/55/upgradedClient' "$(answer ports/055/upgradedClient)"
check 'a port of one byte' 3 "$(answer ports/5)"
check 'what would lie below it' '0 18 E ports/5/upgradedClient' "$(answer ports/5/upgradedClient)"
check 'a connection for a height' 18 "$(answer connections/connection-3/upgradedClient)"
for text in ports/55+a nextClientSequence./5/upgradedClient; do
    check 'what comes between' "E $text" "$(answer "$text" | cut -d ' ' -f 3-)"
done
printf '%s\n' ports/55 ports/55+a ports/55/upgradedClient >"$work/order"
printf '%s\n' nextClientSequence nextClientSequence./5/upgradedClient nextClientSequence/5/upgradedClient >>"$work/order"
for three in 1,3 4,6; do
    sed -n "${three}p" "$work/order" >"$work/three"
    check 'three keys in byte order' "$(cat "$work/three")" "$(LC_ALL=C sort "$work/three")"
done

echo "$passed passed, $failed failed"
[ "$failed" -eq 0 ]
