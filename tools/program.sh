# Which program is of the sources as they stand. To be sourced, with the folder of the repository in `top`: by ./pdq, tools/ship and
# tests/shipped, and by tools/programs.py for the other scripts.

out=$top/crates/pdq/out
# what the kit's gate or ./pdq built here, and the sum of its sources
built=$out/pdq
# what tools/ship took into the repository, and its note: three lines, each a word and what it is of
shipped=$top/dist/pdq-x86_64-linux
note=$top/dist/made-from
# written when the shipped program was seen to be of these sources
seen=$out/shipped-is-right

# the words by which `find` knows the sources
source_words=(-type f \( -name '*.rt' -o -name '*.antt' -o -name crates.txt \))

# one sum over the names and contents of all sources
sum_of_sources() {
    (set -o pipefail && cd "$top" && find crates.txt crates -name out -prune -o "${source_words[@]}" -print0 |
        LC_ALL=C sort -z | xargs -0 sha256sum | sum_of_input)
}

sum_of_input() {
    local sum
    sum=$(sha256sum) && printf '%s\n' "${sum%% *}"
}

# Whether a source is newer than a file, or a folder, in which one was then added, renamed or removed. Further words say which folders
# count.
newer_than() {
    local found
    found=$(cd "$top" && find crates.txt crates -name out -prune -o \
        \( "${source_words[@]}" -o -type d "${@:2}" \) -newer "$1" -print -quit) || return 0
    [ -n "$found" ]
}

# Whether a program was built here, of these sources. Where a time says that a source is newer, as in a copied tree, the contents decide.
# The gate leaves no sum: then only times can say it, and those of the crates' own folders do not, as the gate makes their folders `out`.
is_built() {
    [ -x "$built" ] || return 1
    if [ ! -s "$built.sum" ] || [ "$built" -nt "$built.sum" ]; then
        ! newer_than "$built" -regextype posix-extended -regex 'crates(/[^/]*/(src|specs|proofs)(/.*)?)?' || return 1
        { sum_of_sources >"$built.sum"; } 2>/dev/null || :
    elif newer_than "$built"; then
        [ "$(sum_of_sources)" = "$(cat "$built.sum")" ] || return 1
        touch "$built" "$built.sum" 2>/dev/null || :
    fi
}

# what the note says of a word
noted() {
    local word rest
    while read -r word rest; do
        [ "$word" != "$1" ] || printf '%s\n' "$rest"
    done <"$note"
}

# Whether the shipped program is of these sources, whole, and starts here; where it is not, `why` says so. Later calls look at times alone.
is_shipped() {
    why=
    [ -e "$shipped" ] || return 1
    if [ -e "$seen" ] && [ ! "$top/dist" -nt "$seen" ] && [ ! "$shipped" -nt "$seen" ] && [ ! "$note" -nt "$seen" ] &&
        ! newer_than "$seen"; then
        return 0
    fi
    why="the shipped program has no note dist/made-from"
    [ -r "$note" ] || return 1
    why="the shipped program is of other sources"
    [ "$(sum_of_sources)" = "$(noted sources)" ] || return 1
    why="the shipped program is not the one that dist/made-from names"
    [ "$(sum_of_input <"$shipped")" = "$(noted program)" ] || return 1
    # on another machine, or one with an older C library
    why="the shipped program does not start here"
    { "$shipped" help; } </dev/null >/dev/null 2>&1 || return 1
    why=
    { mkdir -p "$out" && : >"$seen"; } 2>/dev/null || :
}

# Gives `program` that of these sources, if there is one: the one that was built here, or else the shipped one, unless PDQ_BUILD_HERE
# is set.
find_program() {
    why=
    if is_built; then
        program=$built
    elif [ -z "${PDQ_BUILD_HERE-}" ] && is_shipped; then
        program=$shipped
    else
        return 1
    fi
}
