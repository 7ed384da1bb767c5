#!/bin/sh
# Holds what declares and calls the C interface to its sources, crates/hostpath/src/lib.rt and crates/text/src/refusal.rt:
# bin/interface makes what is committed, and it refuses copies in which an argument, a type, a field, a sentence or the version
# is another. Holds the table of refusals in docs/RULES.md to the same numbers and names. Last line: 'N passed, M failed'.
. "$(dirname "$0")/lib/start.sh"

if bin/interface --check; then
    passed=$((passed + 1))
else
    echo 'interface: run bin/interface'
    failed=$((failed + 1))
fi

mkdir -p "$work/oracle/compare" "$work/rust/hostpath"
cp -R bin crates include "$work"
cp oracle/pairs.c "$work/oracle"
cp -R oracle/compare/src "$work/oracle/compare"
cp -R rust/hostpath/src rust/hostpath/Cargo.toml "$work/rust/hostpath"

# In a copy one place of a file is changed, as sed says: that is refused with words that have this in them.
refuses() {
    file=$1 change=$2 words=$3
    sed "$change" "$file" >"$work/$file"
    if cmp -s "$file" "$work/$file"; then
        echo "interface: nothing to change in $file by $change"
        failed=$((failed + 1))
    elif "$work/bin/interface" --check >"$work/said" 2>&1 || ! grep -qF "$words" "$work/said"; then
        echo "interface: $file changed by $change, and it is not said"
        failed=$((failed + 1))
    else
        passed=$((passed + 1))
    fi
    cp "$file" "$work/$file"
}

# the order of two arguments, in each place that has them
refuses include/hostpath.h '/ hp_render(/s/uint64_t a, uint64_t b/uint64_t b, uint64_t a/' include/hostpath.h
refuses rust/hostpath/src/raw.rs '/ hp_render(/s/a: u64, b: u64/b: u64, a: u64/' rust/hostpath/src/raw.rs
refuses rust/hostpath/src/raw.rs '/c::hp_render(/s/, a, b,/, b, a,/' rust/hostpath/src/raw.rs
refuses oracle/compare/src/dispatch.rs 's/render(kind, texts\[0\], texts\[1\]/render(kind, texts[1], texts[0]/' oracle/compare/src/dispatch.rs
for file in include/hostpath.h rust/hostpath/src/raw.rs; do
    refuses crates/hostpath/src/lib.rt '/fn hp_book_write(/s/text: &\[u8\], value: &\[u8\]/value: \&[u8], text: \&[u8]/' "$file"
done
# a type, a buffer that is no longer lent to be written, the order of an answer's fields
refuses include/hostpath.h '/ hp_is_provable(/s/uint8_t kind/uint64_t kind/' include/hostpath.h
refuses rust/hostpath/src/raw.rs '/ hp_book_write(/s/\*mut u8/*const u8/' rust/hostpath/src/raw.rs
refuses include/hostpath.h '/^struct hp_pair {/s/number\(.*\)height/height\1number/' include/hostpath.h
# a number and a sentence of a refusal
refuses crates/text/src/refusal.rt 's/ABSENT: u8 = 12/ABSENT: u8 = 15/' rust/hostpath/src/refusal.rs
refuses crates/text/src/refusal.rt '/^pub const FULL_SAYS: /,/";$/d' 'no sentence says what FULL is'
refuses crates/text/src/refusal.rt '/^pub const FULL: /d' 'a sentence is of no refusal'
refuses crates/text/src/refusal.rt 's/the quota has no room/a quota has no room/' include/hostpath.h
refuses rust/hostpath/src/refusal.rs 's/=> "the quota has no room/=> "a quota has no room/' rust/hostpath/src/refusal.rs
# the version
for file in include/hostpath.h bin/askpath; do
    refuses rust/hostpath/Cargo.toml 's/^version = .*/version = "9.9.9"/' "$file"
done
# a call without a word, and one that takes what no C call can be given
refuses crates/hostpath/src/lib.rt '/^\/\/ The rendering of the text: /d' 'hp_key has no comment above it'
refuses crates/hostpath/src/lib.rt '/fn hp_is_provable(/s/u8)/bool)/' 'hp_is_provable takes a bool'
# a wide call that takes or answers other things than the plain one, and one of no plain call
refuses crates/hostpath/src/lib.rt '/fn hp_wide_acks_path(/s/port: &\[u8\], channel: &\[u8\]/channel: \&[u8], port: \&[u8]/' 'hp_wide_acks_path takes or answers other things'
refuses crates/hostpath/src/lib.rt '/fn hp_wide_key(/s/Written/Fault/' 'hp_wide_key takes or answers other things'
refuses crates/hostpath/src/lib.rt 's/fn hp_wide_key(/fn hp_wide_keys(/' 'hp_wide_keys is the wide mode of no call'

check 'the refusals of docs/RULES.md' \
    "$(sed -n 's/^pub const \([A-Z0-9_]*\): u8 = \([1-9][0-9]*\);$/\2 \1/p' crates/text/src/refusal.rt)" \
    "$(sed -n '/^## Refusals/,/^No call gives/s/^| \([0-9]*\) | \([A-Z0-9_]*\) | .*/\1 \2/p' docs/RULES.md)"

echo "$passed passed, $failed failed"
[ "$failed" -eq 0 ]
