# Which program tools/clsynth runs, and whether it is the one of the files as they stand. `top` is the folder of the repository.
#
# The program is kept in out/, apart from what `rt` builds. Beside it stands a record of three lines: the digest of the files that it was
# built from, the line of the kit that built it, and the digest of a listing of these files. What the files hold decides. They are read
# only where the listing, with their sizes and the times of their last changes, isn't the same.
program=$top/out/clsynth
record=$top/out/clsynth.record

say() {
    echo "clsynth: $*" >&2
}

fail() {
    say "$*"
    exit 70
}

# Finds the files that a build reads, and `rt` if it is given. The other words are those of `find`.
find_files() {
    (cd "$top" && find -H crates crates.txt HANDLES ${rt:+"$rt"} -name out -regex 'crates/[^/]*/out' -prune -o -type f "$@")
}

listing() {
    rt=$(command -v rt)
    find_files -printf '%p %s %C@\n' | LC_ALL=C sort | sha256sum
}

contents() {
    rt=
    find_files -print0 | LC_ALL=C sort -z | (cd "$top" && xargs -0 sha256sum) | sha256sum
}

read_record() {
    of_contents='' by_kit='' of_listing=''
    [ ! -f "$record" ] || { read -r of_contents && read -r by_kit && read -r of_listing; } <"$record"
}

# The listing is one from before the contents were read, so that a later change shows.
write_record() {
    printf '%s\n' "$@" >"$record.new" && mv "$record.new" "$record"
}

# Whether the program was built from these files, by a listing.
is_listed() {
    read_record
    [ -x "$program" ] && [ "$1" = "$of_listing" ]
}

# Whether the program was built from these contents by this kit. Where no kit is on the PATH, the contents decide alone.
is_current() {
    read_record
    [ -x "$program" ] && [ "$1" = "$of_contents" ] || return 1
    ! command -v rt >/dev/null || [ "$(rt version)" = "$by_kit" ]
}

# Waits until no other call looks at the program or builds it, and has others wait until `release`.
take_turn() {
    mkdir -p "$top/out" && exec 9>"$top/out/clsynth.lock" || exit 70
    flock -w 5 9 || { say "another call builds the program; waiting for it"; flock 9; }
}

release() {
    exec 9>&-
}

# Keeps the program that `rt` has built from files with these contents and this listing. The one of before stands until then.
keep() {
    cp "$top/crates/clsynth/out/clsynth" "$program.new" || exit 70
    rm -f "$record"
    mv "$program.new" "$program" && write_record "$1" "$(rt version)" "$2" || exit 70
}
