# shellcheck shell=sh disable=SC2154 # who reads this sets `here`
# What the program is built of, and whether out/pict is built of exactly that. Read by ./pict, ./build and .ci/run, with
# `here` set to the top of the repository. In the folder out/ there stand:
#   pict    the proved program
#   built   what it was built of: the toolchain, the crates under it with what they stand on, and the sum of each
#           source, as `sources` prints them; and the sum of the program itself, last
#   unproved/NAME, unproved/NAME.of   a program that an unproved run compiled, and the toolchain that did
#   seen    the folders of these crates, in the first line, and then size and times of each source, of the program and of
#           the toolchain's command, as they were when all sums were last compared

# The crates under the program, or under this one, each with those that it stands on, as crates.txt has them. Each comes after
# those.
crates() {
    awk -v top="${1:-pict}" '
        !/^#/ && /:/ { line = $0; sub(/:.*/, ""); name = $1; sub(/^[^:]*:/, "", line); below[name] = line }
        function under(name,    count, parts, i) {
            if (name in seen || !(name in below)) return
            seen[name] = 1
            count = split(below[name], parts, " ")
            for (i = 1; i <= count; i++) under(parts[i])
            print name ":" below[name]
        }
        END { under(top) }' "$here/crates.txt"
}

# The folders of these crates, in one line.
folders() {
    crates | awk -F: '{ printf "%scrates/%s", blank, $1; blank = " " } END { print "" }'
}

# What the program is built of. The toolchain's name is given, or asked for.
sources() {
    echo "${1:-$(rt version)}" && crates && (
        cd "$here" || exit
        for folder in $(folders); do
            for part in src specs proofs; do
                [ ! -d "$folder/$part" ] || find "$folder/$part" -type f -exec sha256sum {} +
            done
        done | LC_ALL=C sort -k 2
    )
}

# The sum of the program.
sum_of_program() {
    (cd "$here" && sha256sum out/pict)
}

# Size and times of all that is compared, of the crates in these folders.
listing() {
    cd "$here" && exec find -H crates.txt out/pict "$@" ${rt:+"$rt"} \
        \( -name out -o -name must-fail -o -name more-edits -o -name data \) -prune -o -printf '%p %y %s %T@ %C@\n' 2>/dev/null
}

# Whether out/pict is built of the present sources by the present toolchain. Where no size and no time has changed since
# all sums were last compared, nothing is read. Where there is no toolchain, the one that built it counts as present.
# shellcheck disable=SC2086 # the names of folders have no blanks
is_fresh() {
    [ -x "$here/out/pict" ] && [ -f "$here/out/built" ] || return 1
    rt=$(command -v rt) || rt=
    folders=
    [ ! -f "$here/out/seen" ] || read -r folders <"$here/out/seen"
    [ -z "$folders" ] || [ "$folders
$(listing $folders)" != "$(exec cat "$here/out/seen")" ] || return 0

    folders=$(folders)
    [ -n "$folders" ] || return 1
    now=$(listing $folders)
    read -r toolchain <"$here/out/built"
    [ -z "$rt" ] || toolchain=
    [ "$(sources "$toolchain" && sum_of_program)" = "$(cat "$here/out/built")" ] || return 1
    # (where out/ can't be written, the next call compares again)
    { printf '%s\n' "$folders" "$now" >"$here/out/seen.$$" && mv -f "$here/out/seen.$$" "$here/out/seen"; } 2>/dev/null || :
}

# Puts the program of crates/pict/out into out/, as built of these sources. It fails where they have changed since.
take() {
    mkdir -p "$here/out" && cp "$here/crates/pict/out/pict" "$here/out/pict.$$" && mv -f "$here/out/pict.$$" "$here/out/pict" &&
        { echo "$1" && sum_of_program; } >"$here/out/built.$$" && mv -f "$here/out/built.$$" "$here/out/built" && is_fresh
}

# Whether this file, of the top of the repository, is there, and none of the sources under this crate is newer.
# shellcheck disable=SC2046 # the names of folders have no blanks
is_no_older() {
    [ -x "$here/$1" ] || return 1
    (
        cd "$here" || exit
        newer=$(find -H crates.txt $(crates "$2" | sed 's|^\([^:]*\):.*|crates/\1|') \
            \( -name out -o -name must-fail -o -name more-edits -o -name data \) -prune -o -type f -newer "$1" -print -quit)
        [ -z "$newer" ]
    )
}

# Whether this program, which stands beside pict, is built (rt run in its crate, or the gate) and no source under it is newer.
is_built() {
    is_no_older "crates/$1/out/$1" "$1"
}

# Whether an unproved run kept this program (tools/try-keep), no source under it is newer, and it is of the present toolchain.
is_kept() {
    [ -x "$here/out/unproved/$1" ] && [ "$(rt version 2>/dev/null)" = "$(cat "$here/out/unproved/$1.of" 2>/dev/null)" ] &&
        is_no_older "out/unproved/$1" "$1"
}
