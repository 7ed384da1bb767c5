# What trials/run and tests/trials.sh share: the list of the edits on record, and the places of one.

# Lays each wrong answer's edit of a crate down as a file of its own: those of trials/CRATE.edits, then the must-fail
# edits whose first line names a function of the crate.
lay_out() {
    crate=$1 folder=$2
    mkdir -p "$folder"
    set -- crates/"$crate"/must-fail/*.edit
    [ -f "$1" ] || set --
    [ ! -f "trials/$crate.edits" ] || set -- "trials/$crate.edits" "$@"
    [ $# -eq 0 ] || awk -v crate="$crate" -v folder="$folder" '
        BEGIN { RS = "" }
        FILENAME ~ /must-fail/ && index($0, "# " crate "::") != 1 { next }
        { file = sprintf("%s/%03d", folder, ++count); print >file; close(file) }' "$@"
}

# FUNCTION: WRONG ANSWER
title_of() {
    sed -n '1s/^# //p' "$1"
}

# Prints what the record's edits make of the crate's files, a line each that they change: the file, the line's number and the
# line, with tabs between. The status is 1 where a place is not found, or is one of several.
place_edits() {
    awk -v crate="$2" '
        # The line that holds the old text: the first in the function, its contract left out, or the only one in the file;
        # 0 where there is none.
        function place(old,    i, text, inside, last, found) {
            for (i = 1; i <= lines[file]; i++) {
                text = line[file, i]
                if (fn != "" && !inside && (index(text, "fn " fn "(") || index(text, "fn " fn "<"))) {
                    inside = 1
                    match(text, /^ */)
                    last = substr(text, 1, RLENGTH) "}"
                }
                if (inside && text == last) return 0
                if ((fn != "" && !inside) || !index(text, old)) continue
                if (inside && text ~ /^ *(requires|ensures) /) continue
                if (inside) return i
                if (found || index(substr(text, index(text, old) + 1), old)) return 0
                found = i
            }
            return found
        }
        sub(/^file: /, "") {
            file = $0
            if (file in lines) next
            lines[file] = 0
            while ((getline text <("crates/" crate "/" file)) > 0) line[file, ++lines[file]] = text
        }
        sub(/^fn: /, "") { fn = $0 }
        sub(/^old: /, "") { old = $0 }
        sub(/^new: ?/, "") {
            i = place(old)
            at = index(line[file, i], old)
            if (!i || old == $0) bad = 1
            else line[file, i] = substr(line[file, i], 1, at - 1) $0 substr(line[file, i], at + length(old))
            changed[file "\t" i] = file SUBSEP i
            old = ""
            pairs++
        }
        END {
            if (bad || !pairs) exit 1
            for (i in changed) print i "\t" line[changed[i]]
        }' "$1"
}
