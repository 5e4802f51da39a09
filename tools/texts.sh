# shellcheck shell=sh disable=SC2154 # who reads this sets `here` and `room`
# Finds the texts that an unproved run may ask for, and copies them, since it sees only what it is handed over. Read by ./pict.
# `here` is the top of the repository, and `room` a folder for the copies. Each line of room/given is then a number, of the copy
# room/text.NUMBER, a blank, and the name under which the run is to find it.

# The name that the file has in the run where its own can't be had there.
other_name=program.pi

# Whether a run can find a file under this name: it lies below the folder that it runs in, and its name can be handed over.
is_below() {
    case /$1/ in
        //* | */../* | *=* | *'
'*) return 1 ;;
    esac
}

# Copies a text, with one byte more than a program reads, to room/text. The status is 1 where there is no such text, and 2 where
# it can't be read.
copy_of() {
    LC_ALL=C head -c 1048577 -- "$1" >"$room/text" 2>"$room/why" && return
    ! grep -q 'No such file or directory$' "$room/why" || return 1
    return 2
}

# Gives the text, or an empty one, to the run under this name.
given=0
give() {
    given=$((given + 1))
    if [ -e "$room/text" ]; then mv "$room/text" "$room/text.$given"; else : >"$room/text.$given"; fi
    printf '%s %s\n' "$given" "$1" >>"$room/given"
}

# Makes of a name that is imported what the run is to find under it: its text, nothing, or what can't be read.
give_import() {
    copy_of "$1"
    case $? in
        0)
            LC_ALL=C awk -f "$here/tools/imports.awk" "$room/text" >>"$room/wanted"
            give "$1"
            ;;
        2)
            rm "$room/text"
            above=$1
            while [ ! -f "$above" ] && [ "$above" != "${above%/*}" ]; do above=${above%/*}; done
            # (what lies under a file can't be read, nor can a folder)
            if [ "$above" != "$1" ] && [ -f "$above" ] && copy_of "$above"; then give "$above"; else give "$1/unreadable"; fi
            ;;
    esac
}

# Hands over the file, and the texts that it reaches by its imports, each once. `last` is then the name of the file in the run. A
# name from the root is found by itself, also in the run; one that leads above the folder can't be.
hand_over() {
    # (a word that isn't UTF-8 is refused as a word)
    ! command -v iconv >/dev/null || printf %s "$1" | iconv -f UTF-8 -t UTF-8 >/dev/null 2>&1 || return
    : >"$room/wanted"
    copy_of "$1"
    case $? in
        0)
            LC_ALL=C awk -f "$here/tools/imports.awk" "$room/text" >"$room/wanted"
            ! is_below "$1" && last=$other_name
            give "$last"
            ;;
        1) return ;;
        2)
            rm "$room/text"
            last=$other_name/unreadable
            give "$other_name"
            return
            ;;
    esac
    printf '%s\n' "$1" >"$room/seen"
    number=0
    # (a program has at most 64 texts)
    while [ "$given" -le 65 ] && number=$((number + 1)) && import=$(sed -n "${number}p" "$room/wanted") && [ -n "$import" ]; do
        ! grep -qxF -e "$import" "$room/seen" || continue
        printf '%s\n' "$import" >>"$room/seen"
        if is_below "$import"; then
            give_import "$import"
        elif [ -e "$import" ] && [ "${import#/}" = "$import" ]; then
            say "an unproved run doesn't find $import; ./build, once, proves and builds the program, which does"
        fi
    done
}

# Hands over a replay file, under its own name.
give_trace() {
    if is_below "$1"; then
        give_import "$1"
    elif [ -e "$1" ]; then
        say "an unproved run doesn't find $1; ./build, once, proves and builds the program, which does"
    fi
}
