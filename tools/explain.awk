# After a report: the line of its place with a caret below, unless it was shown already, and the entry of PAGE whose heading is
# the report's text. The place is in the text that the report names: FILE, or one that it imports.
BEGIN {
    file = ENVIRON["FILE"]
    page = ENVIRON["PAGE"]
}
/^ *[0-9]+ \| / { shown_already = 1 }
# (who waits at the end of a run)
/^  `/ { next }
heading == "" && ($0 == "fuel spent" || /^usage: /) { heading = $0 }
heading == "" && match($0, /: (no such file|cannot be read)$/) { heading = substr($0, RSTART + 2) }
# (a name may have colons, so the last place of the line is taken)
heading == "" && match($0, /^.*:[0-9]+:[0-9]+: /) {
    heading = substr($0, RLENGTH + 1)
    name = substr($0, 1, RLENGTH - 2)
    match(name, /:[0-9]+:[0-9]+$/)
    split(substr(name, RSTART + 1), at, ":")
    name = substr(name, 1, RSTART - 1)
    # (of a place in the prelude there is no line to show)
    if (name == "prelude" && file != name) at[1] = ""
}
END {
    if (at[1] != "" && !shown_already) place(at[1] + 0, at[2] + 0)
    if (heading != "") entry(heading)
}

# Of a long line a part is shown. Bytes that don't begin a character take no column, and those that can't be shown are `?`.
function place(row, column,    number, text, from, before) {
    for (number = 0; number < row && (getline text < name) > 0; number++) ;
    close(name)
    if (number < row) text = ""
    from = column > 100 ? column - 80 : 1
    before = shown(substr(text, from, column - from))
    text = shown(substr(text, from, 140))
    gsub(/[\200-\277]/, "", before)
    gsub(/[^\t]/, " ", before)
    printf "%6d | %s\n       | %s^\n", row, text, before
}
function shown(text) {
    gsub(/[\001-\010\013-\037\177]/, "?", text)
    return text
}
function entry(heading,    line, inside, example, last) {
    while ((getline line < page) > 0) {
        if (line ~ /^##? /) {
            inside = line == "## " heading
            last = ""
        } else if (line ~ /^```/) {
            example = line != "```"
        } else if (inside && !example && (line != "" || last != "")) {
            if (line != "") print (last == "" ? "\n  " : "  ") line
            last = line
        }
    }
    close(page)
}
