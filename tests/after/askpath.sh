#!/bin/sh
# Runs the built askpath as a person does: a line is answered before the next is written, however the input is cut, with the
# reason where it is asked why, and what cannot be read or written is said, and shown by the status. It is run after the
# program is built. Last line: 'N passed, M failed'.
. "$(dirname "$0")/../lib/start.sh"
cd .. || exit 2 # start.sh goes to the folder above this one
if [ ! -x target/bin/askpath ]; then
    echo 'askpath: LEFT OUT, the program is not built: how it answers line by line'
    echo '0 passed, 0 failed'
    exit
fi

# Waits until as many lines are answered, ten seconds at most.
answered() {
    tries=0
    while [ "$(wc -l <"$work/out")" -lt "$1" ] && [ "$tries" -lt 100 ]; do
        sleep 0.1
        tries=$((tries + 1))
    done
    tail -n +"$1" "$work/out"
}

# Line by line, with the input open all the while.
mkfifo "$work/in"
: >"$work/out"
bin/askpath <"$work/in" >"$work/out" &
exec 3>"$work/in"
printf 'clients\n' >&3
check 'a line, answered while the input is open' 3 "$(answered 1)"
printf 'clients/07-tendermint-4/consensus' >&3
sleep 0.2
check 'no answer to half a line' 1 "$(grep -c . "$work/out")"
printf 'States/007-+2\n/5/upgr' >&3
check 'a line that came in two parts' '0 5 L clients/07-tendermint-4/consensusStates/7-2' "$(answered 2)"
printf 'adedClient' >&3
exec 3>&-
wait
check 'the last line, which has no end' '0 18 E /5/upgradedClient' "$(answered 3)"

# Lines on both sides of 4,096 bytes, in one input that no single read takes.
awk 'BEGIN {
    for (i = 1; i <= 40; i++) printf "%s%0*d\n", "x/", i % 2 ? 4094 : 4095, 0
    printf "%0300000d\n\nports/ab", 0
}' | bin/askpath >"$work/out"
check 'long lines' '20 of 3, 21 of 1, 3, 0 10 E ports/ab' \
    "$(head -n 41 "$work/out" | grep -cx 3) of 3, $(grep -cx 1 "$work/out") of 1, $(tail -n 2 "$work/out" | head -n 1), $(tail -n 1 "$work/out")"
bin/askpath </dev/null >"$work/out"
check 'no input' '' "$(cat "$work/out")"

# Asked why: as without it but for what follows the number of a refusal, also where every line is empty and lines are long.
none='the text fits none of the nineteen kinds of path: hold its words and numbers against the table of kinds'
printf '%s\n' 'clients/07-tendermint-4/consensusStates/7-x2' /99999999999999999999/upgradedClient '/+/upgradedClient' '' ports/ab |
    bin/askpath why >"$work/out"
check 'asked why' "18 42 a byte of the number is no digit: write it in the digits 0 to 9 alone
19 20 the number is above 18446744073709551615: write a smaller one
17 2 where a number should stand there is no digit: write one, from 0 to 18446744073709551615
3 $none
0 10 E ports/ab" "$(cat "$work/out")"
bin/askpath why <crates/askpath/stdin >"$work/out"
check 'the lines of the program, asked why' "$(cat crates/askpath/stdout)" \
    "$(sed -E 's/^(1[789]|[1-3]) .*/\1/' "$work/out")"
yes '' | head -n 200000 | bin/askpath why >"$work/out"
check 'empty lines, asked why' 200000 "$(grep -cx "3 $none" "$work/out")"
awk 'BEGIN { for (i = 1; i <= 40; i++) printf "%s%0*d\n", "x/", i % 2 ? 4094 : 4095, 0 }' | bin/askpath why >"$work/out"
check 'long lines, asked why' '20 of 3, 20 of 1' "$(grep -cx "3 $none" "$work/out") of 3, $(grep -c '^1 the text' "$work/out") of 1"
program=$(bin/lib/program)
for words in what whyy '' 'why not'; do
    if [ "$words" = 'why not' ]; then set -- why not; else set -- "$words"; fi
    echo ports/ab | "$program" "$@" >"$work/out" 2>"$work/err"
    check "what the program itself says, asked '$words'" '1 line, 0 answers' \
        "$(grep -c 'the one word that can be asked is why' "$work/err") line, $(grep -c . "$work/out") answers"
done

# A folder cannot be read as a file, nor what is closed: neither is an end of the input.
bin/askpath <tests >"$work/out" 2>"$work/err"
check 'the status where the input cannot be read' 1 $?
check 'what is said of that' 1 "$(grep -c 'standard input cannot be read' "$work/err")"
bin/askpath <&- >"$work/out" 2>"$work/err"
check 'the status where the input is closed' 1 $?
check 'what is said of that' 1 "$(grep -c 'standard input cannot be read' "$work/err")"
if [ -c /dev/full ]; then
    echo ports/ab | bin/askpath 2>"$work/err" >/dev/full
    check 'the status where the answers cannot be written' 1 $?
    check 'what is said of that' 1 "$(grep -c 'standard output cannot be written' "$work/err")"
fi
echo clients | bin/askpath >"$work/out" 2>"$work/err"
check 'the status where a line is refused' '0, 3, ' "$?, $(cat "$work/out"), $(cat "$work/err")"

# Pipes that do not wait, by the program itself.
if command -v python3 >/dev/null 2>&1; then
    check 'pipes that do not wait' '20000 0 ' "$(python3 tests/lib/pipes.py 20000 ports/ab '0 10 E ports/ab' "$program")"
else
    echo 'askpath: LEFT OUT, no python3 here: pipes that do not wait'
fi

echo "$passed passed, $failed failed"
[ "$failed" -eq 0 ]
