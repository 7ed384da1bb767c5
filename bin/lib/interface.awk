# For bin/interface: reads the crates' sources and the Rust crate's Cargo.toml, then with target=1 a file, which it prints with
# what it makes of them in the places that the file has for it.
#
# Call n is call[n]: it says says[n], under heads[n] where a heading stands before it, answers answer[n], and its arguments
# are name[n, i] and type[n, i], i from 1 to count[n]; before its body stands head[n], whose clauses take names by imports. Refusal k is refusal[k], with number[k] and sentence[refusal[k]]; 0, which
# is none, is DONE.
# Answer k is struct answers[k]; the fields of struct s are field[s, i] and width[s, i], i from 1 to fields[s].

function fault(what) {
    print "interface: " what >"/dev/stderr"
    status = 1
    exit 1
}

# --- The file with the places

target && !whole { check(); whole = 1 }
making && /Above, made by bin\/interface/ { making = "" }
target && !making { print }
target && /Below, made by bin\/interface: / {
    making = $0
    sub(/.*made by bin\/interface: /, "", making)
    sub(/[^a-z ].*/, "", making)
    match($0, /^ */)
    indent = substr($0, 1, RLENGTH)
    make(making)
    places++
}
target { next }
END { if (!status && (making || !places)) fault(FILENAME " has no place for what is made, or one without an end") }

# --- The sources

FNR == 1 {
    said = ""
    source = FILENAME ~ /hostpath\/src\/lib\.rt$/
    refusals_here = FILENAME ~ /text\/src\/refusal\.rt$/
}

FILENAME ~ /Cargo\.toml$/ && /^version = "/ { version = substr($3, 2, length($3) - 2) }

# A comment's lines wait for what stands below them; one above an empty line is a heading.
/^\/\// { said = said (said == "" ? "" : "\n") substr($0, 4); next }
source && /^$/ && said != "" { heading = said }

# A number, and its sentence, on the same line as its name or on the next.
refusals_here && /^pub const [A-Z0-9_]+: u8 = / && $6 != "0;" {
    refusal[++refusals] = substr($3, 1, length($3) - 1)
    number[refusals] = $6 + 0
}
refusals_here && /^pub const [A-Z0-9_]+_SAYS: / { of = substr($3, 1, length($3) - length("_SAYS:")) }
refusals_here && /\*b".*";$/ && of != "DONE" {
    line = substr($0, index($0, "*b\"") + 3)
    sentence[of] = substr(line, 1, length(line) - 2)
}

/^#\[repr\(C\)\]/ { repr = 1 }
/^}/ { repr = 0 }
repr && /^pub struct / {
    struct = $3
    if (struct in fields) fault("two structs " struct " are for C")
    fields[struct] = 0
}
repr && /^    pub / {
    field[struct, ++fields[struct]] = substr($2, 1, length($2) - 1)
    width[struct, fields[struct]] = substr($3, 1, length($3) - 1)
}

source && /^pub extern "C" fn / { signature = ""; open = 1 }
open {
    line = $0
    sub(/^ +/, "", line)
    signature = signature line (line ~ /,$/ ? " " : "")
    if (line ~ /\) -> /) take()
}
!/^#/ && !open { said = "" }

# What stands before a body, its clauses among them, line by line; and where the clauses take their names from.
source && /^ghost use / { imports = imports (imports == "" ? "" : "\n") $0 }
source && /^pub extern "C" fn / { stands = ""; heading_on = 1 }
heading_on && $0 == "{" { head[calls] = stands; heading_on = 0 }
heading_on { stands = stands (stands == "" ? "" : "\n") $0 }

function take(    n, inner, parts, i) {
    open = 0
    n = ++calls
    call[n] = answer[n] = inner = signature
    sub(/^pub extern "C" fn hp_/, "", call[n])
    sub(/\(.*/, "", call[n])
    sub(/.*\) -> /, "", answer[n])
    if (said == "") fault("hp_" call[n] " has no comment above it")
    says[n] = said
    heads[n] = heading
    heading = said = ""
    sub(/^[^(]*\(/, "", inner)
    sub(/,? *\) -> .*/, "", inner)
    count[n] = split(inner, parts, /, */)
    for (i = 1; i <= count[n]; i++) {
        name[n, i] = type[n, i] = parts[i]
        sub(/: .*/, "", name[n, i])
        sub(/.*: /, "", type[n, i])
        if (type[n, i] !~ /^(u8|u16|u64|&\[u8\]|&mut \[u8\])$/) fault("hp_" call[n] " takes a " type[n, i])
    }
}

# All that is needed was read. The answers are counted, in the order of the calls.
function check(    n, k, seen, told) {
    if (!calls || !refusals || version == "") fault("no calls, no refusals, or no version")
    for (n = 1; n <= calls; n++) {
        if (answer[n] == "u8") continue
        if (!(answer[n] in fields)) fault("hp_" call[n] " answers a " answer[n])
        if (!seen[answer[n]]++) answers[++structs] = answer[n]
    }
    for (k = 1; k <= refusals; k++) {
        if (!(refusal[k] in sentence)) fault("no sentence says what " refusal[k] " is")
        told++
    }
    for (k in sentence) told--
    if (told) fault("a sentence is of no refusal")
    for (n = 1; n <= calls; n++) if (is_wide(n)) same(n)
}

function is_wide(n) {
    return call[n] ~ /^wide_/
}

# The call whose wide mode a call is.
function plain(n) {
    return substr(call[n], length("wide_") + 1)
}

# A wide call takes and answers what the plain one does.
function same(n,    k, i, other) {
    for (k = 1; k <= calls && call[k] != plain(n); k++);
    if (k > calls) fault("hp_" call[n] " is the wide mode of no call")
    other = answer[n] != answer[k] || count[n] != count[k]
    for (i = 1; i <= count[n]; i++) if (name[n, i] != name[k, i] || type[n, i] != type[k, i]) other = 1
    if (other) fault("hp_" call[n] " takes or answers other things than hp_" call[k])
}

# --- What is made

function make(what,    k) {
    if (what == "version in c") say("#define HP_VERSION \"" version "\"")
    else if (what == "version in sh") say("version=" version)
    else if (what == "imports of clauses") say(imports)
    else if (what ~ /refusal/) for (k = 1; k <= refusals; k++) of_refusal(what, k)
    else if (what ~ /answer/) for (k = 1; k <= structs; k++) of_answer(what, answers[k])
    else for (k = 1; k <= calls; k++) of_call(what, k)
}

function say(text) {
    gsub(/\n/, "\n" indent, text)
    print indent text
}

# Words with capitals and no underscores: of client_id_new, ClientIdNew.
function camel(words,    parts, many, i, all) {
    many = split(tolower(words), parts, "_")
    for (i = 1; i <= many; i++) all = all toupper(substr(parts[i], 1, 1)) substr(parts[i], 2)
    return all
}

function c_comment(text) {
    gsub(/\n/, "\n * ", text)
    return "/* " text " */"
}

function rust_comment(text) {
    gsub(/\n/, "\n/// ", text)
    return "/// " text
}

# Where the refusals of a call's comment begin: behind its last colon that stands in no parenthesis.
function refusals_at(text,    i, depth, at) {
    for (i = 1; i <= length(text); i++) {
        depth += (substr(text, i, 1) == "(") - (substr(text, i, 1) == ")")
        if (!depth && substr(text, i, 2) ~ /:[ \n]/) at = i
    }
    return at
}

# A call's comment with each refusal's number linked to its variant.
function linked(text,    at, rest, all, word, k) {
    at = refusals_at(text)
    if (!at) return text
    all = substr(text, 1, at)
    rest = substr(text, at + 1)
    while (match(rest, /[0-9]+(,[0-9]+)*/)) {
        word = substr(rest, RSTART, RLENGTH)
        for (k = 1; k <= refusals && number[k] "" != word; k++);
        all = all substr(rest, 1, RSTART - 1) (k > refusals ? word : "[" word "](crate::Refusal::" camel(refusal[k]) ")")
        rest = substr(rest, RSTART + RLENGTH)
    }
    return all rest
}

function of_refusal(what, k) {
    if (what == "refusals in c") {
        say(c_comment(sentence[refusal[k]]))
        say("HP_" refusal[k] " = " number[k] (k < refusals ? "," : ""))
    } else if (what == "refusals") {
        say("/// " number[k] ": " sentence[refusal[k]] ".")
        say(camel(refusal[k]) " = " number[k] ",")
    } else if (what == "numbers of refusals") say(number[k] " => Self::" camel(refusal[k]) ",")
    else if (what == "sentences of refusals") say("Self::" camel(refusal[k]) " => \"" sentence[refusal[k]] "\",")
    else fault("nothing is made for " what)
}

function of_answer(what, s,    i, all) {
    for (i = 1; i <= fields[s]; i++) {
        if (what == "answers in c") all = all " " c_type(width[s, i]) " " field[s, i] ";"
        else all = all "\n    /// " field_comment(field[s, i]) "\n    pub " field[s, i] ": " width[s, i] ","
    }
    if (what == "answers in c") say(c_type(s) " {" all " };")
    else if (what == "answers") {
        say("\n/// What a call answers.\n#[repr(C)]\n#[derive(Clone, Copy, Debug, PartialEq, Eq)]\n#[must_use]")
        say("pub struct " s " {" all "\n}")
    } else fault("nothing is made for " what)
}

function field_comment(field) {
    if (field == "refusal") return "A refusal's number, or 0."
    if (field == "place") return "The byte, counted from 0, where the fault of a number stands: of 17, 18 and 19 alone, else 0."
    return "0 where the call is refused."
}

function of_call(what, n) {
    if (what == "calls in c") {
        if (heads[n] != "") say("\n" c_comment(heads[n]) "\n")
        say(c_comment(says[n]) "\n" c_prototype(n) ";")
    } else if (what == "exports") say("\n#[unsafe(no_mangle)]\n" head[n] "\n{\n    hostpath::hp_" call[n] "(" named(n) ")\n}")
    else if (what == "calls around others") {
        if (answer[n] != "u8" && fields[answer[n]] > 2) around(n)
    } else if (what == "calls on pointers") {
        say("/// [`" call[n] "`] on pointers.")
        say("pub fn hp_" call[n] "(" rust_arguments(n, "pointers") ") -> " answer[n] ";")
    } else if (what == "calls on slices") {
        say("\n" rust_comment(linked(says[n])))
        say("pub fn " call[n] "(" rust_arguments(n, "slices") ") -> " answer[n] " {")
        say("    // SAFETY: each pointer and count are those of one live slice.")
        say("    unsafe { c::hp_" call[n] "(" rust_arguments(n, "passed") ") }\n}")
    } else if (what == "calls") say(camel(call[n]) ",")
    else if (what == "names of calls") say("\"hp_" call[n] "\" => Self::" camel(call[n]) ",")
    else if (what == "what calls take") say("Self::" camel(call[n]) " => [" numbered(n) ", " has(n, "book") ", " lends(n) "],")
    else if (what == "calls in the wide mode") {
        if (is_wide(n)) say("Self::" camel(plain(n)) " => Self::" camel(call[n]) ",")
    } else if (what == "calls of the wide mode") {
        if (is_wide(n)) say("Self::" camel(call[n]) " => (Mode::Wide, Self::" camel(plain(n)) "),")
    } else if (what == "each call made") say("Function::" camel(call[n]) " => raw::" call[n] "(" from_call(n) ").into(),")
    else fault("nothing is made for " what)
}

function c_type(rust) {
    if (rust == "u8") return "uint8_t"
    if (rust == "u16") return "uint16_t"
    if (rust == "u64") return "uint64_t"
    return "struct hp_" tolower(rust)
}

function c_prototype(n) {
    return c_type(answer[n]) " hp_" call[n] "(" (count[n] ? c_arguments(n) : "void") ")"
}

function c_arguments(n,    i, all) {
    for (i = 1; i <= count[n]; i++) {
        all = all (i > 1 ? ", " : "")
        if (type[n, i] ~ /^u/) all = all c_type(type[n, i]) " " name[n, i]
        else all = all (type[n, i] ~ /mut/ ? "" : "const ") "uint8_t *" name[n, i] ", size_t " name[n, i] "_len"
    }
    return all
}

# A call's arguments by their names alone.
function named(n,    i, all) {
    for (i = 1; i <= count[n]; i++) all = all (i > 1 ? ", " : "") name[n, i]
    return all
}

# A C function that hands on to inner_.., which answers through a pointer.
function around(n,    i, passed) {
    for (i = 1; i <= count[n]; i++) passed = passed ", " name[n, i] (type[n, i] ~ /^u/ ? "" : ", " name[n, i] "_len")
    say("\nvoid inner_hp_" call[n] "(" c_type(answer[n]) " *answer, " c_arguments(n) ");\n")
    say(c_prototype(n) " {\n    " c_type(answer[n]) " answer;")
    say("    inner_hp_" call[n] "(&answer" passed ");\n    return answer;\n}")
}

# A call's arguments on pointers, on slices, or as they are passed from slices to pointers.
function rust_arguments(n, how,    i, all, id, mut) {
    for (i = 1; i <= count[n]; i++) {
        id = name[n, i]
        mut = type[n, i] ~ /mut/
        all = all (i > 1 ? ", " : "")
        if (how == "passed" && type[n, i] ~ /^u/) all = all id
        else if (how == "passed") all = all id (mut ? ".as_mut_ptr(), " : ".as_ptr(), ") id ".len()"
        else if (how == "slices" || type[n, i] ~ /^u/) all = all id ": " type[n, i]
        else all = all id ": *" (mut ? "mut" : "const") " u8, " id "_len: usize"
    }
    return all
}

# Whether it takes a number of one byte: a kind, an owner, or that of a refusal.
function numbered(n,    i) {
    for (i = 1; i <= count[n]; i++) if (type[n, i] == "u8") return "true"
    return "false"
}

function has(n, argument,    i) {
    for (i = 1; i <= count[n]; i++) if (name[n, i] == argument) return "true"
    return "false"
}

# Whether a lent buffer that the call writes is no book: `out`, by whatever name.
function fills(n, i) {
    return type[n, i] ~ /mut/ && name[n, i] != "book"
}

function lends(n,    i) {
    for (i = 1; i <= count[n]; i++) if (fills(n, i)) return "true"
    return "false"
}

# A call's arguments out of a `Call`: texts and numbers by their order, a number of one byte as its kind, the others by name.
function from_call(n,    i, all, texts, numbers) {
    for (i = 1; i <= count[n]; i++) {
        all = all (i > 1 ? ", " : "")
        if (type[n, i] == "u64") all = all "numbers[" (numbers++) "]"
        else if (type[n, i] == "u16") all = all "numbers[" (numbers++) "] as u16"
        else if (type[n, i] == "u8") all = all "kind"
        else if (type[n, i] == "&[u8]" && name[n, i] != "book") all = all "texts[" (texts++) "]"
        else if (fills(n, i)) all = all "out"
        else all = all name[n, i]
    }
    return all
}
