# What every test begins with: the repository's top, a folder of its own that goes away, and the two counts.
set -u
cd "$(dirname "$0")/.." || exit 2
work=$(mktemp -d) || exit 2
trap 'rm -rf "$work"' EXIT
passed=0
failed=0

# Runs a command and counts it; where it fails, the first word says what does not hold.
holds() {
    said=$1
    shift
    if "$@"; then
        passed=$((passed + 1))
    else
        echo "$(basename "$0" .sh): $said"
        failed=$((failed + 1))
    fi
}

# Counts what was got, which has to be what was expected: check NAME EXPECTED GOT.
check() {
    holds "$1: '$3' in place of '$2'" test "$2" = "$3"
}
