# The indented blocks of a document.

# Prints one of a section, by its number from 1: block FILE SECTION NUMBER. A line of text ends a block.
block() {
    awk -v section="## $2" -v wanted="$3" '
        /^## / { within = $0 == section; next }
        !within { next }
        /^    / { if (!open) count++; open = 1; if (count == wanted) print gap substr($0, 5); gap = ""; next }
        /^$/ { gap = open ? gap "\n" : ""; next }
        { open = 0; gap = "" }' "$1"
}
