# Prints what the program wrote on its standard error in an unproved run, from all that `rt try` wrote there. The name
# WORD, under which the file was handed over, is read as FILE, its own. Status 1 where the program didn't end by itself; then
# it says to which limit the run came.
BEGIN {
    word = ENVIRON["WORD"]
    file = ENVIRON["FILE"]
}
/^(checked|interpreter|races): / || /^(rt|run|runners)[:=]/ {
    if (sub(/^checked: no-answer: /, "")) why = $0
    last = $0
    next
}
{
    if (word != "" && index($0, word ":") == 1) $0 = file substr($0, length(word) + 1)
    wrote = wrote $0 "\n"
    last = ""
}
END {
    if (last ~ /^run=ended /) {
        printf "%s", wrote
        exit 0
    }
    if (last ~ /^run=no-answer /)
        print "pict: an unproved run " limit()
    else
        printf "pict: the code can't be run as it stands:\n%s%s\n", wrote, last
    exit 1
}
# The limit that the run came to.
function limit(    build) {
    build = "; ./build, once, proves and builds the program, which has no such limit"
    if (why ~ /time limit/) return "has 60 seconds, and this one came to no end within them" build
    if (why ~ /wrote more than/) return "has 1 MiB of output, and this one wrote more" build
    if (why ~ /stack/) return "has the stack that `ulimit -s` says, and this one needs more; ./build, once, proves and builds the program, which needs less"
    return "has 60 seconds and 1 MiB of output, and this one had no answer" (why == "" ? "" : " (" why ")") build
}
