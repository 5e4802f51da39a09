# Prints the names of a text's imports that a shelf may be asked for, one a line: the strings behind the words `import` at its
# beginning, with their escapes put in. Comments and blanks may stand between. What stands behind the imports is not read.
{
    rest = $0
    while (rest != "") {
        if (depth > 0) {
            if (!match(rest, /\{\*|\*\}/)) break
            depth += substr(rest, RSTART, 1) == "{" ? 1 : -1
            rest = substr(rest, RSTART + 2)
        } else if (match(rest, /^[ \t\r]+/)) {
            rest = substr(rest, RLENGTH + 1)
        } else if (substr(rest, 1, 2) == "{*") {
            depth = 1
            rest = substr(rest, 3)
        } else if (awaits) {
            if (!match(rest, /^"([^"\\]|\\.)*"/)) exit
            literal = substr(rest, 2, RLENGTH - 2)
            rest = substr(rest, RLENGTH + 1)
            name = plain(literal)
            if (name ~ /^[ -,.-~][ -~]*$/) print name
            awaits = 0
        } else {
            if (rest !~ /^import/ || rest ~ /^import[A-Za-z0-9_']/) exit
            rest = substr(rest, 7)
            awaits = 1
        }
    }
}
# The bytes of a literal. (what isn't printable is no name, so it is no matter which byte it is)
function plain(literal,    bytes, code) {
    while (match(literal, /\\/)) {
        bytes = bytes substr(literal, 1, RSTART - 1)
        literal = substr(literal, RSTART + 1)
        if (substr(literal, 1, 1) == "x") {
            code = 16 * digit(substr(literal, 2, 1)) + digit(substr(literal, 3, 1))
            bytes = bytes (code >= 32 && code <= 126 ? sprintf("%c", code) : "\n")
            literal = substr(literal, 4)
        } else {
            bytes = bytes (index("nt", substr(literal, 1, 1)) ? "\n" : substr(literal, 1, 1))
            literal = substr(literal, 2)
        }
    }
    return bytes literal
}
function digit(letter) {
    return index("0123456789abcdef", tolower(letter)) - 1
}
