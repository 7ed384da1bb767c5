#!/bin/sh
# What the sources have to say of every public function of every listed library, as bin/contracts prints it: a contract, with
# definitions that exist; a lemma for each buffer that it is lent, or one for its answer, that any two outcomes are equal; and
# two wrong answers on record. An exported call, which has no wrong answers of its own, hands on to public functions alone, and
# its contract cites all that theirs cite; hostpath_c, the archive of these calls, is for tests/interface.sh. And demand 1 is stated of each exported call, and of every public function that
# asks nothing of its caller and writes, or answers a refusal number. Last line: 'N passed, M failed'.
. "$(dirname "$0")/lib/start.sh"

fail() {
    echo "contracts: $1"
    failed=$((failed + 1))
}

# What answers a refusal number: a byte, a type that holds one, or a Result whose error is one of these.
refusing=$(awk '/^pub (struct|enum) / { type = $3 } /^ *(pub refusal: u8|Refused\(u8\)),/ { printf " " type }' crates/*/src/*.rt)

# The public functions of the listed libraries, as crate::module::Type::function, with a star where one has a `requires`, and
# how many buffers it is lent to write; in a file of their own those without `requires` that are lent one, or answer a refusal
# number. A bound is a `requires` too: what a generic function answers is its type's to say, and demand 1 is stated of its callers,
# each of which gives it a type.
: >"$work/all-free"
sed 's/#.*//' crates.txt | awk -F: 'NF { gsub(/[ \t]/, "", $1); print $1 }' | while read -r crate; do
    [ -f "crates/$crate/src/lib.rt" ] || continue
    for file in crates/"$crate"/src/*.rt; do
        module=$(basename "$file" .rt)
        prefix=$crate
        [ "$module" = lib ] || prefix=$crate::$module
        awk -v prefix="$prefix" -v refusing="u8$refusing" -v free="$work/all-free" '
            BEGIN { count = split(refusing, types, " "); for (i = 1; i <= count; i++) answers[types[i]] = 1 }
            /^impl[ <]/ { type = $0; sub(/^impl(<[^>]*>)? /, "", type); sub(/[ <].*/, "", type); type = type "::" }
            /^}/ { type = "" }
            /^ *pub (extern "C" )?fn / {
                name = $0
                sub(/^ *pub (extern "C" )?fn /, "", name)
                sub(/[(<].*/, "", name)
                name = prefix "::" type name
                head = ""
                inside = 1
            }
            inside { head = head " " $0 }
            inside && /^ *[{]$|^ *(pub .*|\).*) [{]$/ {
                inside = 0
                asks = head ~ / requires / || head ~ /^ *pub fn [a-z_]+<[A-Z][A-Za-z]*: /
                sub(/ (requires|ensures) .*/, "", head)
                answer = head
                if (!sub(/.*\) -> /, "", answer)) answer = ""
                error = answer
                if (!sub(/^Result<.*, /, "", error)) error = ""
                sub(/>.*/, "", error)
                sub(/ .*/, "", answer)
                buffers = gsub(/&mut /, "", head)
                print name, asks ? "*" : "-", buffers
                if (!asks && (buffers || answers[answer] || answers[error])) print name >>free
            }' "$file"
    done
done | sort >"$work/facts"
sort "$work/all-free" >"$work/free"
check 'as many public functions as lines that begin one' \
    "$(grep -cE '^ *pub (extern "C" )?fn ' $(ls crates/*/src/*.rt | grep -v -e /main.rt -e /hostpath_c/) | awk -F: '{ n += $2 } END { print n }')" \
    "$(grep -c '' "$work/facts")"

# The rows: function | what its contract cites | lemma | demand 1 | wrong answer | wrong answer; of exported calls:
# call | what its contract cites | lemma | demand 1 | the functions that it hands on to
bin/contracts | grep -E '^\| `[a-z_]+::' >"$work/rows"

# The row that the page shows is one of them.
sed -n 's/^    |/|/p' docs/CONTRACTS.md >"$work/shown"
holds 'docs/CONTRACTS.md shows another row than bin/contracts prints' grep -qxFf "$work/shown" "$work/rows"

# What specs/ declares: names of its own, and the cases of a data type.
sed -nE 's/^ *(abbrev |unfoldable )?pub (data |record )?([^ ]+).*/\3/p; s/^  ([a-z][^ ]*) : .*/\1/p' crates/*/specs/*.antt | sort -u >"$work/definitions"
# The lemmas that say it of the answer and of a buffer.
sed -nE 's/^pub ([^ ]*) : (.* → )?OneWith .*/\1/p' crates/*/proofs/Unique.antt | sort -u >"$work/with"

# Each fact is a line: 'ok', or what does not hold.
awk -F ' *[|] *' '
    function say(holds, said) { print holds ? "ok" : said }
    # The names in backquotes in a cell.
    function names(cell, list,    n) {
        n = 0
        split("", list)
        while (match(cell, /`[^`]*`/)) {
            list[++n] = substr(cell, RSTART + 1, RLENGTH - 2)
            cell = substr(cell, RSTART + RLENGTH)
        }
        return n
    }
    FILENAME ~ /facts$/ { split($0, fact, " "); star[fact[1]] = fact[2]; buffers[fact[1]] = fact[3]; next }
    FILENAME ~ /definitions$/ { declared[$0] = 1; next }
    FILENAME ~ /with$/ { with[$0] = 1; next }
    {
        names($2, own)
        name = own[1]
        say(name in star, "a row for " name ", which is no public function")
        say(!rows[name]++, "two rows for " name)
        say((star[name] == "*") == ($2 ~ /\*$/), name " has a star, or none, and its source does not say so")
        say($3 != "", name " has no contract")
        cites[name] = $3
        count = names($3, list)
        for (i = 1; i <= count; i++) say(list[i] in declared, name " cites the definition " list[i] ", which does not exist")
        count = names($4, list)
        say(count == (buffers[name] > 1 ? buffers[name] : 1), name " has " count " uniqueness lemmas, and is lent " buffers[name] " buffers")
        for (i = 1; i <= count; i++) say(!buffers[name] || list[i] in with, "the lemma " list[i] " of " name " says nothing of a buffer")
        if (name ~ /^hostpath::/) {
            say($5 != "", name " has no line of demand 1")
            calls[name] = $6
            next
        }
        say($6 != "" && $7 != "" && NF == 8, name " has no two wrong answers")
        say($6 != $7, name " has one wrong answer twice")
    }
    END {
        for (name in star) say(name in rows, "no row for " name)
        for (name in calls) {
            count = names(calls[name], list)
            say(count, name " hands on to nothing")
            for (i = 1; i <= count; i++) {
                say(list[i] in star && list[i] !~ /^hostpath::/, name " hands on to " list[i] ", which is no public function of a library")
                cited = names(cites[list[i]], its)
                for (j = 1; j <= cited; j++) say(index(cites[name], "`" its[j] "`"), name " does not cite " its[j] ", as " list[i] " does")
            }
        }
    }' "$work/facts" "$work/definitions" "$work/with" "$work/rows" >"$work/said"
passed=$((passed + $(grep -cx ok "$work/said")))
grep -vx ok "$work/said" >"$work/unsaid"
while read -r line; do fail "$line"; done <"$work/unsaid"

# Each of those has its line of demand 1, or docs/CONTRACTS.md lists it with its reason.
demand=crates/demands/specs/Demand1.antt
sed -n '/^### Demand 1,/,/^### Demand 2,/p' docs/CONTRACTS.md | grep '^- ' | grep -o '`[^`]*::[^`]*`' | tr -d '`' | sort >"$work/without"
while read -r name; do
    line=$(sed -n "s/^use Rattle\.$(printf '%s' "$name" | sed 's/::/.proofs./; s/::/./g').Reads as //p" "$demand")
    if [ -n "$line" ] && grep -q "^pub [^ ]*_holds : Demand1 $line\.Pre $line\.Post " "$demand"; then
        passed=$((passed + 1))
        if grep -qxF "$name" "$work/without"; then fail "$name has a line in $demand, and is listed as without"; fi
    elif grep -qxF "$name" "$work/without"; then
        passed=$((passed + 1))
    else
        fail "$demand has no line for $name"
    fi
done <"$work/free"
comm -13 "$work/free" "$work/without" >"$work/unknown"
while read -r name; do fail "$name is listed as without a line of demand 1, and needs none"; done <"$work/unknown"

echo "$passed passed, $failed failed"
[ "$failed" -eq 0 ]
