# For what proves and builds (bin/lib/program, oracle/library): what to do where the toolchain is missing, what need not be
# made again, and what is shown of minutes of work. The caller stands at the repository's top, and `name` is what it is
# called on standard error.

# Goes on only with the toolchain; `instead` is what else can be done: need WHAT.
instead=
need() {
    command -v rt >/dev/null 2>&1 && return
    echo "$name: the Rattle toolchain is needed to $1: put its command rt on the PATH, and call again$instead" >&2
    exit 2
}

# Whether a file was made after the last change to others, of which what is made in folders `out` is none: fresh FILE SOURCE ..
fresh() {
    made=$1
    shift
    [ -f "$made" ] && [ -z "$(find "$@" -name out -prune -o -newer "$made" -type f -print -quit)" ]
}

# How many crates of crates.txt a crate needs, itself among them; the kit's own are not listed there.
crates_of() {
    awk -F: -v crate="$1" '
        { sub(/#.*/, "") }
        NF { sub(/ .*/, "", $1); needs[$1] = $2 }
        function count(c,    parts, n, i, all) {
            if (seen[c]++ || !(c in needs)) return 0
            all = 1
            n = split(needs[c], parts, " ")
            for (i = 1; i <= n; i++) all += count(parts[i])
            return all
        }
        END { print count(crate) }' crates.txt
}

# A folder to work in, which goes away.
room() {
    [ -z "${work-}" ] || return 0
    work=$(mktemp -d)
    trap 'rm -rf "$work"' EXIT
}

# Runs a command of the toolchain in a crate's folder, which proves the crate and all that it needs, and shows a line for each
# of these that is proved now. Where the command fails, all that it said is shown: build CRATE WHAT COMMAND ..
build() {
    crate=$1
    what=$2
    shift 2
    need "prove and build ${what%%,*}"
    all=$(crates_of "$crate")
    room
    echo "$name: $all crates are proved and built into $what, this once" >&2
    { (cd "crates/$crate" && "$@") </dev/null 2>&1 && : >"$work/done"; } | tee "$work/said" | {
        some=0
        shown=' '
        one=
        while read -r word next rest; do
            case $word in
            crate) one=${next%:} ;; # what the prover says of a crate ends with its modules, and then its verdict
            logic=proved)
                case $shown in *" $one "*) continue ;; esac
                shown="$shown$one "
                some=$((some + 1))
                echo "$name: $one, $some of $all" >&2
                ;;
            esac
        done
    }
    if [ ! -f "$work/done" ]; then
        cat "$work/said" >&2
        echo "$name: ${what%%,*} could not be made: what the toolchain says of it stands above" >&2
        exit 1
    fi
    echo "$name: ready" >&2
}
