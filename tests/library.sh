#!/bin/sh
# Holds oracle/library to what it says of itself, with a toolchain that only stands for the real one: it proves and builds the
# archive where that has not been done yet and else does nothing, shows how far that is, takes the folder that HOSTPATH_LIB
# names, also by a relative path, and says what to do where something is missing. Last line: 'N passed, M failed'.
. "$(dirname "$0")/lib/start.sh"

mkdir -p "$work/top/bin" "$work/top/oracle" "$work/top/crates/hostpath_c" "$work/tools"
cp -R bin/lib "$work/top/bin"
cp oracle/library oracle/start.sh "$work/top/oracle"
printf 'text:\nhostpath: text\nhostpath_c staticlib: text hostpath\ndemands: text hostpath\n' >"$work/top/crates.txt"
for tool in awk cat cp dirname find mkdir mktemp rm tee; do ln -s "$(command -v "$tool")" "$work/tools"; done
printf '#!/bin/sh\necho x86_64\n' >"$work/tools/uname"
chmod +x "$work/tools/uname"

# Calls it in the folder `work`, and lays down what it prints, what it says on standard error, and its status.
call() {
    status=0
    (cd "$work" && PATH=$work/tools /bin/sh top/oracle/library) >"$work/out" 2>"$work/err" || status=$?
}

call
check 'the status where the toolchain is missing' 2 "$status"
check 'the lines that say what to do' 1 "$(grep -c 'put its command rt on the PATH.* HOSTPATH_LIB$' "$work/err")"

cat >"$work/tools/rt" <<'END'
#!/bin/sh
echo "${PWD##*/} $*" >>../../calls
for crate in text hostpath hostpath_c; do
    echo 'note: a line of the prover'
    echo "crate $crate: modules loaded=1 checked=2"
    echo 'logic=proved functions=1'
done
echo 'crate hostpath_c: modules loaded=3 checked=0'
echo 'logic=proved functions=1'
mkdir -p out
echo archive >out/libhostpath_c.a
END
chmod +x "$work/tools/rt"
call
check 'what it prints' "$work/top/target/staticlib" "$(cat "$work/out")"
check 'what is there' archive "$(cat "$work/top/target/staticlib/libhostpath.a")"
check 'what the toolchain was asked' 'hostpath_c lib' "$(cat "$work/top/calls")"
check 'what is shown of it' 'library: text, 1 of 3 library: hostpath, 2 of 3 library: hostpath_c, 3 of 3 library: ready' "$(sed -n '2,5p' "$work/err" | tr '\n' ' ' | sed 's/ $//')"
check 'what is said first' 1 "$(head -n 1 "$work/err" | grep -c '^library: 3 crates are proved and built into the archive, which may take ')"
call
check 'calls of the toolchain where nothing changed' 1 "$(grep -c . "$work/top/calls")"
check 'what it prints then' "$work/top/target/staticlib" "$(cat "$work/out")"
touch -t 202001010000 "$work/top/target/staticlib/libhostpath.a"
touch "$work/top/crates/source"
call
check 'calls where a source is newer' 2 "$(grep -c . "$work/top/calls")"
printf '#!/bin/sh\necho "what went wrong"\nexit 3\n' >"$work/tools/rt"
touch -t 202001010000 "$work/top/target/staticlib/libhostpath.a"
call
check 'the status where it is not proved' 1 "$status"
check 'what is shown of that' 'what went wrong' "$(sed -n 2p "$work/err")"

mkdir "$work/some"
HOSTPATH_LIB=some
export HOSTPATH_LIB
call
check 'the status where the folder has no archive' 2 "$status"
check 'what is said of it' 1 "$(grep -c '^library: HOSTPATH_LIB names some, where there is no libhostpath.a' "$work/err")"
touch "$work/some/libhostpath.a"
call
check 'a relative folder' "$work/some" "$(cat "$work/out")"

# What the scripts begin with that go elsewhere before they use the two folders.
printf '#!/bin/sh\n. "$(dirname "$0")/start.sh"\necho "$HOSTPATH_LIB $ORACLE_SOURCE"\n' >"$work/top/oracle/script"
check 'a relative folder of the original' "$work/some $work/tools" \
    "$(cd "$work" && ORACLE_SOURCE=tools PATH=$work/tools /bin/sh top/oracle/script)"

echo "$passed passed, $failed failed"
[ "$failed" -eq 0 ]
