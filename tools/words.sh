# shellcheck shell=sh disable=SC2154 # who reads this sets `here`
# Answers words of no shape, and a file that isn't there, with the texts and statuses of the program. Read by ./pict before an
# unproved run, which compiles for a minute; the built program reads its words itself. `here` is the top of the repository.

# Whether a word is a decimal number, without a sign and without a leading zero, of at most this one.
is_number() {
    case $1 in
        '' | *[!0123456789]* | 0?*) return 1 ;;
    esac
    [ ${#1} -lt ${#2} ] || { [ ${#1} -eq ${#2} ] && LC_ALL=C expr "x$1" '<=' "x$2" >/dev/null; }
}

# Whether the program has a command of this name.
is_command() {
    case ${1-} in
        '' | *[!abcdefghijklmnopqrstuvwxyz]*) return 1 ;;
    esac
    grep -qsF "\"$1\"" "$here"/crates/pict_words/src/*.rt
}

# Whether a word may name a file.
is_file_word() {
    case ${1-} in
        '' | -*) return 1 ;;
    esac
}

# Whether words have one of the shapes. It says yes of a command that the program has and that isn't known here.
have_shape() {
    is_command "${1-}" || return
    command=$1
    shift
    case $command in
        load)
            [ $# -eq 1 ] && is_number "$1" 18446744073709551615
            return
            ;;
        run | trace | check | code | pick | picked | sites | replay | build | exec) ;;
        *) return 0 ;;
    esac
    # (an object has no prelude)
    [ "${1-}" != --bare ] || [ "$command" = exec ] || shift
    case $command${1-} in
        run--fuel | trace--fuel | pick--fuel | picked--fuel | sites--fuel | exec--fuel)
            is_number "${2-}" 1000000000 || return
            shift 2
            ;;
    esac
    case $command in
        sites)
            is_number "${1-}" 64 && [ "$1" != 0 ] || return
            shift
            ;;
    esac
    case $command in
        pick | picked | sites)
            is_number "${1-}" 18446744073709551615 || return
            shift
            ;;
        replay)
            is_file_word "${1-}" || return
            shift
            ;;
    esac
    [ $# -eq 1 ] && is_file_word "$1"
}

# Ends with the program's text and status where words have no shape (2) or name a file that isn't there (8). Else it comes back:
# where a word isn't UTF-8, of which nothing is said here, or where the program's sources can't be read.
answer_at_once() {
    usage=$(sed -n 's/.*b"\(usage: pict .*\)\\n";$/\1/p' "$here/crates/pict_report/src/report.rt" 2>/dev/null)
    [ -n "$usage" ] && is_command run && printf '%s\n' "$@" | iconv -f UTF-8 -t UTF-8 >/dev/null 2>&1 || return 0
    have_shape "$@" || {
        printf '%s\n' "$usage" >&2
        exit 2
    }
    case $1 in
        run | trace | check | code | pick | picked | sites | replay | build | exec) ;;
        *) return 0 ;;
    esac
    file='' last=''
    for word in "$@"; do file=$last last=$word; done
    # (of a replay the program is looked at first, the word before the last one)
    [ "$1" = replay ] || file=$last
    if ! [ -e "$file" ] && LC_ALL=C head -c 1 -- "$file" 2>&1 >/dev/null | grep -q 'No such file or directory$'; then
        printf '%s: no such file\n' "$file" >&2
        exit 8
    fi
}

# The same of the word `channels` and words behind it, with which ./explain does what `check` does.
answer_as_check() {
    shift
    answer_at_once check "$@"
}
