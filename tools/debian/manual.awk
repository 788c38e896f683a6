# The manual page of a command of the program, from what `roadlrs COMMAND --help` prints. Given are command, version and day.

# a text as roff takes it
function plain(text) {
    gsub(/\\/, "\\e", text)
    gsub(/-/, "\\\\-", text)
    return text ~ /^[.']/ ? "\\\\&" text : text
}

# the same with the words that stand for others slanted: <DB> becomes DB, and [MM] keeps its brackets
function marked(text) {
    text = plain(text)
    while (match(text, /\[[A-Z]+\]/)) text = around("[<" substr(text, RSTART + 1, RLENGTH - 2) ">]", text)
    while (match(text, /<[A-Z]+>/)) text = around("\\fI" substr(text, RSTART + 1, RLENGTH - 2) "\\fR", text)
    return text
}

# the text with this in the place of what was matched
function around(middle, text) { return substr(text, 1, RSTART - 1) middle substr(text, RSTART + RLENGTH) }

# an argument or an option, and behind two spaces or more what is said of it
function item(line,    name, said) {
    sub(/^ +/, "", line)
    match(line, /  +/)
    name = substr(line, 1, RSTART - 1)
    said = substr(line, RSTART + RLENGTH)
    return ".TP\n" (name ~ /^-/ ? "\\fB" marked(name) "\\fR" : marked(name)) "\n" plain(said) "\n"
}

NR == 1 { brief = $0; next }
/^Usage: roadlrs / { sub(/^Usage: /, ""); usage = $0; next }
/^Arguments:$/ { part = "arguments"; next }
/^Options:$/ { part = "options"; next }
/^Examples?: / { part = "examples"; sub(/^Examples?: /, "") }
/^$/ { part = ""; gap = records == "" ? "" : ".PP\n"; next }
part == "arguments" { arguments = arguments item($0); next }
part == "options" { options = options item($0); next }
part == "examples" { sub(/^ +/, ""); examples = examples plain($0) "\n"; next }
{ records = records gap plain($0) "\n"; gap = "" }

END {
    printf ".TH ROADLRS\\-%s 1 \"%s\" \"roadlrs %s\" \"User commands\"\n", toupper(command), day, version
    printf ".SH NAME\nroadlrs\\-%s \\- %s\n", command, plain(brief)
    usage = marked(usage)
    sub(/^roadlrs [a-z]+/, "\\fB&\\fR", usage)
    printf ".SH SYNOPSIS\n%s\n.SH ARGUMENTS\n%s.SH OPTIONS\n%s", usage, arguments, options
    if (records != "") printf ".SH RECORDS\n.nf\n%s.fi\n", records
    printf ".SH EXAMPLES\n.EX\n%s.EE\n", examples
    printf ".SH SEE ALSO\n.BR roadlrs (1)\nhas the options that go with every command, the statuses and the faults.\n"
}
