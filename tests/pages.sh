#!/bin/sh
# Every file of a crate that a page names is there; and what docs/RATTLE.md names of a crate is a public function, a type or a
# module of it, and in the page's first part no function with a `requires`. Last line: 'N passed, M failed'.
. "$(dirname "$0")/lib/start.sh"

grep -Eo 'crates/[a-z_]+/(src|specs|proofs|must-fail)/[A-Za-z_/]+\.[a-z]+' README.md docs/*.md oracle/README.md | sort -u >"$work/named"
while IFS=: read -r page file; do
    if [ -f "$file" ]; then
        passed=$((passed + 1))
    else
        echo "pages: $page names $file, which is not there"
        failed=$((failed + 1))
    fi
done <"$work/named"

# The public functions, with ' *' behind one that has a `requires`.
bin/contracts | sed -n 's/^| `\([^`]*\)`\( \*\)\{0,1\} |.*/\1\2/p' >"$work/functions"

# Whether crate::..::name is a public function, of which a star is allowed or not; a type; or a module.
is_named() {
    grep -qxF "$1" "$work/functions" && return
    [ "$2" = free ] || ! grep -qxF "$1 *" "$work/functions" || return 0
    case ${1##*::} in
    [A-Z]*) grep -qE "^pub (struct|enum) ${1##*::}( |\(|$)" crates/"${1%%::*}"/src/*.rt ;;
    *) [ -f "crates/${1%%::*}/src/${1#*::}.rt" ] ;;
    esac
}

# The names on a page that comes from standard input.
names() {
    grep -Eo '(^|[^A-Za-z0-9_:])[a-z_]+(::[A-Za-z0-9_]+)+' | sed 's/^[^a-z_]//' | sort -u
}

for name in $(sed '/^## Functions that ask/,$d' docs/RATTLE.md | names); do
    holds "docs/RATTLE.md names $name, which is nothing public, or asks something" is_named "$name" free
done
for name in $(sed -n '/^## Functions that ask/,$p' docs/RATTLE.md | names); do
    holds "docs/RATTLE.md names $name, which is nothing public" is_named "$name" starred
done

echo "$passed passed, $failed failed"
[ "$failed" -eq 0 ] && [ "$passed" -ne 0 ]
