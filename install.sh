#!/bin/sh
# Installs the program as PREFIX/bin/quadq, with the script that draws graphs, the man page and the completions of bash
# and zsh; or the library for C.
set -eu
usage='usage: install.sh [--lib] [PREFIX]
Puts quadq at PREFIX/bin/quadq: the program that was built here, or that of dist/, where it is of these sources; else
proves and builds it first. PREFIX is /usr/local if not given. The script that draws graphs goes beside it, as
quadq-draw-graph, and the man page and the completions of bash and zsh below PREFIX/share.
With --lib it puts the library for C there instead, as PREFIX/lib/libquadq.a and PREFIX/include/quadq.h, and proves and
builds it first where build/libquadq.a is not of these sources; that needs the Rattle kit.'
fail() {
    echo "install.sh: $1" >&2
    exit 1
}

part=program
if [ "${1-}" = --lib ]; then
    part=library
    shift
fi
case ${1-} in
    -h | --help) echo "$usage" && exit 0 ;;
    -*) echo "$usage" >&2 && exit 2 ;;
esac
[ $# -eq 0 ] || { [ $# -eq 1 ] && [ -n "$1" ]; } || { echo "$usage" >&2 && exit 2; }
root=$(dirname "$(readlink -f "$0")")
prefix=${1:-/usr/local}
bin=$prefix/bin
target=$bin/quadq
drawing=$bin/quadq-draw-graph
archive=$prefix/lib/libquadq.a
header=$prefix/include/quadq.h
case $part in
    program) set -- "$target" "$drawing" ;;
    library) set -- "$archive" "$header" ;;
esac

# The nearest folder that is there has to take new files; nothing is made before what is installed is built.
for file in "$@"; do
    [ ! -d "$file" ] || fail "$file is a folder"
done
there=$(dirname "$1")
while [ ! -e "$there" ] && [ ! -L "$there" ]; do
    there=$(dirname "$there")
done
[ -d "$there" ] || fail "$there is not a folder"
[ -w "$there" ] && [ -x "$there" ] || fail "$there cannot be written to"

if [ "$part" = library ]; then
    "$root/tools/build_library.py" || exit 1
else
    program=$(cd "$root" && . tools/sources.sh && find_program)
fi
if [ "$part" = program ] && [ -z "$program" ]; then
    "$root/tools/build.py" || exit 1
    program=build/quadq
fi

umask 022
new=
trap 'rm -f "$new"' EXIT
trap 'exit 1' HUP INT TERM

# put FILE TARGET MODE: written beside its place and moved there when it is whole, so that no half file stands there.
put() {
    folder=$(dirname "$2")
    mkdir -p "$folder"
    new=$(mktemp "$folder/.quadq.XXXXXX") || fail "$folder cannot be written to"
    cp "$1" "$new" || fail "$2 could not be written"
    chmod "$3" "$new"
    mv -f "$new" "$2"
}
if [ "$part" = library ]; then
    put "$root/include/quadq.h" "$header" 644
    put "$root/build/libquadq.a" "$archive" 644
    echo "quadq: installed as $archive and $header" >&2
    exit
fi
put "$root/docs/quadq.1" "$prefix/share/man/man1/quadq.1" 644
put "$root/tools/completions/quadq.bash" "$prefix/share/bash-completion/completions/quadq" 644
put "$root/tools/completions/_quadq" "$prefix/share/zsh/site-functions/_quadq" 644
put "$root/tools/layout_text.py" "$prefix/share/quadq/layout_text.py" 644
put "$root/tools/obj_text.py" "$prefix/share/quadq/obj_text.py" 644
put "$root/tools/draw_graph.py" "$drawing" 755
put "$root/$program" "$target" 755
echo "quadq: installed as $target" >&2
