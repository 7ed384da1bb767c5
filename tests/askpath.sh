#!/bin/sh
# Holds bin/askpath to what it says of itself, with a program and a toolchain that only stand for the real ones. In the
# repository it proves and builds once, shows how far that is, asks for the toolchain only where that is needed, and hands its
# argument and its input to the program. Installed, as bin/install lays it out, it gives the program its status.
# Last line: 'N passed, M failed'.
. "$(dirname "$0")/lib/start.sh"

mkdir -p "$work/bin" "$work/crates/askpath" "$work/tools"
cp -R bin/askpath bin/lib "$work/bin"
printf '# a comment\ntext:\nother: text\nask: text\naskpath: text ask io\n' >"$work/crates.txt"
for tool in awk cat chmod cp dirname find grep mkdir mktemp mv readlink rm sed tee touch; do
    ln -s "$(command -v "$tool")" "$work/tools"
done
printf '#!/bin/sh\necho x86_64\n' >"$work/tools/uname"
printf '#!/bin/sh\necho "the program" "$@"\ncat\n' >"$work/program"
chmod +x "$work/tools/uname" "$work/program"

# Calls it with the line `text`, and lays down what it prints, what it says on standard error, and its status.
askpath=$work/bin/askpath
call() {
    status=0
    echo text | PATH=$work/tools /bin/sh "$askpath" "$@" >"$work/out" 2>"$work/err" || status=$?
}

# The lines of what was printed, or said, as one.
printed() {
    tr '\n' ' ' <"$work/out" | sed 's/ $//'
}
told() {
    tr '\n' '|' <"$work/err" | sed 's/|$//'
}

call
check 'the status where the toolchain is missing' 2 "$status"
check 'what is printed then' '' "$(printed)"
check 'the lines that say what to do' 1 "$(grep -c 'put its command rt on the PATH' "$work/err")"

# The toolchain that stands for the real one counts its calls, reads all that is left to it of the input, and says much.
cat >"$work/tools/rt" <<'END'
#!/bin/sh
cat >/dev/null
echo "${PWD##*/} $*" >>../../calls
for crate in text ask askpath; do
    echo 'note: a line of the prover'
    echo "crate $crate: modules loaded=1 checked=2"
    echo 'logic=proved functions=1'
done
echo 'rt: running out/askpath; to give it other input, run that file yourself'
mkdir -p out
cp ../../program out/askpath
END
chmod +x "$work/tools/rt"
call
check 'the first call' 'the program text' "$(printed)"
check 'its status' 0 "$status"
check 'what the toolchain was asked' 'askpath run' "$(cat "$work/calls")"
check 'what is shown of it' \
    'askpath: 3 crates are proved and built into the program, which may take eight minutes of processor time, this once|askpath: text, 1 of 3|askpath: ask, 2 of 3|askpath: askpath, 3 of 3|askpath: ready' \
    "$(told)"
call
check 'calls of the toolchain once the program is built' 1 "$(grep -c . "$work/calls")"
check 'what is shown then' '' "$(told)"

touch -t 202001010000 "$work/target/bin/askpath"
touch "$work/crates/source"
printf '#!/bin/sh\necho "what went wrong"\nexit 1\n' >"$work/tools/rt"
call
check 'the status where it is not proved' 1 "$status"
check 'what is shown of that' 'what went wrong' "$(sed -n 2p "$work/err")"
check 'what is printed then' '' "$(printed)"
printf '#!/bin/sh\ncat >/dev/null\necho again >>../../calls\n' >"$work/tools/rt" # all is proved: the program stays as it is
call
call
check 'calls where a source is newer' 2 "$(grep -c . "$work/calls")"

rm "$work/tools/rt"
call
check 'the second call without the toolchain' 0 "$status"
ln -s bin/askpath "$work/link"
askpath=$work/link
call why
check 'asked why, by a symbolic link' 'the program why text' "$(printed)"

# As bin/install lays it out: what stands around the program is the script.
mkdir -p "$work/include" "$work/docs" "$work/rust/hostpath" "$work/oracle" "$work/lib"
cp bin/install "$work/bin"
cp include/hostpath.h "$work/include"
cp docs/askpath.1 "$work/docs"
cp rust/hostpath/Cargo.toml "$work/rust/hostpath"
cp oracle/library "$work/oracle"
: >"$work/lib/libhostpath.a"
ln -s "$(command -v install)" "$work/tools"
(cd "$work/crates" && HOSTPATH_LIB=../lib PATH=$work/tools /bin/sh ../bin/install ../prefix) >"$work/out" 2>&1
check 'the files that are installed' 6 "$(grep -c "^install: $work/crates/../prefix/.*, new\$" "$work/out")"
check 'the program that is installed' "$(cat "$work/program")" "$(cat "$work/prefix/libexec/hostpath/askpath")"
check 'the version of hostpath.pc and of the header' "$(sed -n 's/^Version: //p' "$work/prefix/lib/pkgconfig/hostpath.pc")" \
    "$(sed -n 's/^#define HP_VERSION "\(.*\)"$/\1/p' "$work/prefix/include/hostpath.h")"
rm "$work/prefix/libexec/hostpath/askpath"
askpath=$work/prefix/bin/askpath
call
check 'the status without its program' 2 "$status"
check 'what is said of that' 1 "$(grep -c 'its program is not at' "$work/err")"

# The program of these lines stands for the real one.
program() {
    { echo '#!/bin/sh'; cat; } >"$work/prefix/libexec/hostpath/askpath"
    chmod +x "$work/prefix/libexec/hostpath/askpath"
}

program <"$work/program"
call why
check 'the installed one, asked why' 'the program why text' "$(printed)"
check 'its status' 0 "$status"
for words in --hel what '' 'why not' '--help --version'; do
    case $words in *' '*) call ${words% *} ${words#* } ;; *) call "$words" ;; esac
    check "the status, asked '$words'" 2 "$status"
    check 'what is said of it' 1 "$(grep -c 'the one word that can be asked is why' "$work/err")"
    check 'what is printed then' '' "$(printed)"
done
call --version
check 'its version' "askpath $(sed -n 's/^version = "\(.*\)"/\1/p' rust/hostpath/Cargo.toml), 0" "$(printed), $status"
call --help
check 'its help' '1 and 0' "$(grep -c '^askpath why ' "$work/out") and $status"

program <<'END'
cat
echo 'askpath: something failed' >&2
END
call
check 'the answers where something failed' text "$(printed)"
check 'what is said of that' 'askpath: something failed' "$(told)"
check 'the status then' 1 "$status"
program <<'END'
exec cat
END
PATH=$work/tools /bin/sh "$askpath" <&- >"$work/out" 2>"$work/err"
check 'the status where the input is closed' 1 $?
echo text | PATH=$work/tools /bin/sh "$askpath" >&- 2>"$work/err"
check 'the status where the output is closed' 1 $?

# A signal to the script alone ends the program too, and the script by that signal.
mkfifo "$work/in"
program <<'END'
echo $$ >"${0%/*}/pid"
exec cat
END
for name in TERM HUP; do
    sh "$askpath" <"$work/in" >"$work/out" &
    child=$!
    exec 3>"$work/in"
    echo text >&3
    tries=0
    while [ ! -s "$work/out" ] && [ "$tries" -lt 100 ]; do
        sleep 0.1
        tries=$((tries + 1))
    done
    kill -s "$name" "$child"
    wait "$child" 2>/dev/null
    check "the signal by which it ends" "$name" "$(kill -l $?)"
    check 'the program that is left' '' "$(kill -0 "$(cat "$work/prefix/libexec/hostpath/pid")" 2>/dev/null && echo there)"
    exec 3>&-
    : >"$work/out"
done
if (sh -c 'kill -s PIPE $$') 2>/dev/null; then
    echo 'askpath: LEFT OUT, signal PIPE is ignored here: a reader that goes away'
else
    { yes | sh "$askpath" 2>"$work/err"; echo $? >"$work/status"; } | head -n 1 >"$work/out"
    check 'where the reader goes away' 'y, 141, ' "$(cat "$work/out"), $(cat "$work/status"), $(told)"
fi

# `cat` fails on what does not wait.
if command -v python3 >/dev/null 2>&1; then
    check 'a pipe that does not wait' '100000 0 ' "$(python3 tests/lib/pipes.py 100000 text text sh "$askpath")"
else
    echo 'askpath: LEFT OUT, no python3 here: a pipe that does not wait'
fi

echo "$passed passed, $failed failed"
[ "$failed" -eq 0 ]
