#!/bin/sh
# Runs the commands of README that ask and link: each is the first indented line of its section, and the lines after the
# next gap what it prints. It is run after the program is built. Last line: 'N passed, M failed'.
. "$(dirname "$0")/../lib/start.sh"
cd .. || exit 2 # start.sh goes to the folder above this one

# The indented lines of a section.
shown() {
    sed -n "/^## $1/,/^## /s/^    //p" README.md
}

if [ -x target/bin/askpath ]; then
    check 'what askpath answers' "$(shown 'Ask it' | tail -n +2)" "$(shown 'Ask it' | sed -n 1p | sh)"
else
    echo 'readme: LEFT OUT, the program is not built: what README asks it'
fi

library=target/native/libhostpath.a # where oracle/library puts it, for the processor at hand
[ "$(uname -m)" != x86_64 ] || library=target/staticlib/libhostpath.a
if [ -f "$library" ] && command -v cc >/dev/null 2>&1; then
    check 'what the C example prints' "$(cat examples/path.out)" "$(shown 'Link it' | sed -n 1p | sh)"
else
    echo 'readme: LEFT OUT, no archive for this processor or no C compiler: how README links the library'
fi

echo "$passed passed, $failed failed"
[ "$failed" -eq 0 ]
