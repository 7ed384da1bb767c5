#!/bin/sh
# What may be skipped may be skipped: files of specs/ that end in Laws hold consequences. No contract cites one, no definition
# is made of one, and where a file of `demands` cites one, it is in a proof: not in what the file defines or states. And
# docs/ARCHITECTURE.md lists the files that have to be believed as bin/believe prints them. Last line: 'N passed, M failed'.
. "$(dirname "$0")/lib/start.sh"

# The lines of a file that are no proof and have a name that it takes from a file of laws. A proof begins, behind the
# signature of its name, with that name again, and goes on as long as lines are indented further.
cited() {
    awk '
        /^use .*Laws\.\{/ {
            list = $0
            gsub(/^[^{]*\{|\}.*/, "", list)
            n = split(list, taken, /, */)
            for (i = 1; i <= n; i++) { sub(/.* as /, "", taken[i]); laws[taken[i]] = 1 }
            next
        }
        /^use .*Laws as / { laws[$NF "."] = 1; next }
        /^use / || /^ *--/ || /^ *unfolding / || /^ *$/ { next }
        {
            match($0, /^ */)
            depth = RLENGTH
            if (proving && depth > proof) next
            proving = 0
            line = $0
            gsub(/^ *(abbrev |unfoldable )?(pub )?/, "", line)
            split(line, word, / +/)
            if (word[2] == ":") { name = word[1]; open = $0 ~ /^ *(abbrev|unfoldable) / }
            else if (word[1] == name && !open) { proving = 1; proof = depth; next }
            rest = $0
            gsub(/[][(){},;]/, " ", rest)
            n = split(rest, word, / +/)
            for (i = 1; i <= n; i++) {
                alias = word[i] # a name, also with a projection behind it, or what stands before a name of a module
                sub(/\..*/, ".", alias)
                if (substr(alias, 1, length(alias) - (alias ~ /\.$/)) in laws || alias in laws) print FILENAME ":" FNR ": " word[i]
            }
        }' "$1"
}

for file in crates/*/src/*.rt crates/*/src/*/*.rt; do
    [ -f "$file" ] || continue
    holds "$file cites laws" test -z "$(grep 'ghost use .*Laws\.' "$file")"
done
for file in crates/*/specs/*.antt; do
    case $file in
    *Laws.antt | */Lib.antt) continue ;;
    crates/demands/*) found=$(cited "$file") ;;
    *) found=$(grep '^use .*Laws' "$file") ;;
    esac
    holds "$file defines or states something by laws: $found" test -z "$found"
done

bin/believe | grep '^|' >"$work/printed"
sed -n '/^| crate | what the contracts cite/,/^$/p' docs/ARCHITECTURE.md | grep '^|' >"$work/listed"
holds 'docs/ARCHITECTURE.md does not list the files that bin/believe prints' cmp -s "$work/printed" "$work/listed"

echo "$passed passed, $failed failed"
[ "$failed" -eq 0 ]
