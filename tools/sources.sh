# Functions for the scripts that run, build, install or check the program. They work in the checkout's folder.
#
# What the program is built of is crates.txt and each file below a crate's src/ and specs/. Proofs are left out, since
# what was proved of the code stays proved.

# list_sources: each source and each file of dist/, with its size and times. An unchanged list means unchanged files.
# It ends the shell that it is called in, which spares a process.
list_sources() {
    exec find crates.txt crates/*/src crates/*/specs dist -type f -printf '%p %s %T@ %C@\n' 2>/dev/null
}

# sum_of_sources: the checksum of the sources, whatever their times are.
sum_of_sources() {
    find crates.txt crates/*/src crates/*/specs -type f -print0 2>/dev/null | LC_ALL=C sort -z |
        xargs -0 sha256sum -b | sha256sum | cut -d ' ' -f 1
}

# told_by_dist WORD: what dist/README.md says of the program, of its sources or of the kit.
told_by_dist() {
    sed -n "s/^| $1 | \`\(.*\)\` |\$/\1/p" dist/README.md 2>/dev/null
}

# is_as_listed LIST: whether all files are as they were when this list was written.
is_as_listed() {
    [ -e "$1" ] && list_sources | cmp -s - "$1"
}

# remember LISTED LIST: writes a list as a whole, or not at all where the checkout cannot be written to.
remember() {
    mkdir -p build && printf '%s\n' "$1" >"$2.$$" && mv -f "$2.$$" "$2" || rm -f "$2.$$"
} 2>/dev/null

# is_built SUM: whether build/quadq was built of the sources with this checksum.
is_built() {
    [ -x build/quadq ] && [ "$(cat build/sum 2>/dev/null)" = "$1" ]
}

# is_whole: whether dist/quadq is the program that dist/README.md names.
is_whole() {
    [ -x dist/quadq ] && [ "$(sha256sum -b dist/quadq)" = "$(told_by_dist program) *dist/quadq" ]
}

# is_in_dist SUM: whether dist/quadq was built of the sources with this checksum, and is whole.
is_in_dist() {
    [ "$(told_by_dist sources)" = "$1" ] && is_whole
}

# find_program: prints the program that was built of these sources, or nothing.
# The list of files is made before their checksum: what changes after it differs from it at the next start.
find_program() {
    if [ -x build/quadq ] && is_as_listed build/sources; then
        echo build/quadq
    elif is_as_listed build/dist; then
        echo dist/quadq
    else
        listed=$(list_sources) || :
        sum=$(sum_of_sources)
        if is_built "$sum"; then
            echo build/quadq
            remember "$listed" build/sources
        elif is_in_dist "$sum"; then
            echo dist/quadq
            remember "$listed" build/dist
        fi
    fi
}
