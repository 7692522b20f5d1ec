#!/bin/bash
# Tries ./quadq, install.sh, tools/dist and .ci/run in small checkouts, over a false `rt` that makes a program which
# prints its source. The groups of trials below run side by side, each in a room of its own. Takes half a minute, and
# prints what was wrong.
# usage: tools/test_launcher.sh [-v]     (prints what was right too)
set -u
root=$(dirname "$(dirname "$(readlink -f "$0")")")
verbose=${1-}

# What `rt` does here is told by files of $room: `slow` seconds it takes, `broken` where it fails, `bad` where it passes a
# bad edit, `edit` a command that it runs in mid-build. The folder `none` has what a machine without the kit has.
make_kit() {
    mkdir -p "$room/bin" "$room/none"
    cat >"$room/bin/rt" <<'END'
#!/bin/bash
room=$(dirname "$(dirname "$(readlink -f "$0")")")
if [ "$1" = version ]; then
    cat "$room/version"
    exit
fi
if [ "$1" = ci ]; then
    rm -rf crates/*/out
    cd crates/qm_prog || exit 1
fi
echo build >>"$room/builds"
mkdir -p out
text=$(cat ../low/src/lib.rt)
if [ -e "$room/edit" ]; then
    sh -c "$(cat "$room/edit")"
    rm "$room/edit"
fi
echo "so far: 5 of 9 functions checked" >&2
[ ! -e "$room/waits" ] || echo "rt: waiting for another rt to finish in $PWD" >&2
[ ! -e "$room/slow" ] || sleep "$(cat "$room/slow")"
echo "checked 17 modules" >&2
echo "fn low::b: proved" >&2
[ ! -e "$room/bad" ] || echo "rt: must-fail low/a.edit: BAD EDIT: it changes nothing"
if [ -e "$room/broken" ]; then
    echo "error: the function low::a has an open goal" >&2
    echo "statements std: modules loaded=243 checked=0" >&2
    [ "$1" != ci ] || echo "2 passed, 1 failed"
    exit 1
fi
printf '#!/bin/sh\n[ "$*" != tidy ] || exit 0\necho "%s: $*"\n' "$text" >out/qm_prog
echo 'echo said >&2 || exit 13; exit 7' >>out/qm_prog
head -c 100000 /dev/zero | tr '\0' '#' >>out/qm_prog
chmod +x out/qm_prog
[ "$1" != ci ] || echo "3 passed, 0 failed"
END
    chmod +x "$room/bin/rt"
    echo "a false kit" >"$room/version"
    for tool in sh env readlink find sort xargs sha256sum cut sed cmp cat mkdir mktemp mv rm cp chmod dirname; do
        ln -s "$(command -v "$tool")" "$room/none"
    done
    ln -s "$(python3 -c 'import sys; print(sys.executable)')" "$room/none/python3"
}

# A checkout of two crates, as the folder that is named. The steps of the gate that need more than these do nothing.
checkout() {
    mkdir -p "$1/docs/pictures" "$1/crates/low/src" "$1/crates/low/proofs" "$1/crates/qm_prog/src" "$1/crates/low/specs" "$1/.ci"
    cp -r "$root/quadq" "$root/install.sh" "$root/tools" "$1"
    for step in trusted_base measure_proofs third_party try_packages edits documents test_launcher.sh command_lines allocations.sh test_python get_blender test_blender test_report; do
        printf '#!/bin/sh\n' >"$1/tools/$step"
    done
    install -m 755 "$1/tools/edits" "$1/docs/pictures/draw_crates.py"
    cp "$root/.ci/run" "$1/.ci"
    cp "$root/docs/quadq.1" "$1/docs"
    echo "-- A word." >"$1/crates/low/specs/Word.antt"
    echo "-- A lemma." >"$1/crates/low/proofs/Lemma.antt"
    echo first >"$1/crates/low/src/lib.rt"
    echo more >"$1/crates/low/src/more.rt"
    echo main >"$1/crates/qm_prog/src/main.rt"
    printf 'low:\nqm_prog: low\n' >"$1/crates.txt"
    echo "Handles allowed: none." >"$1/HANDLES"
}

# The same with a dist/ of these sources, whose program says that it is the one of dist/.
checkout_with_dist() {
    checkout "$1"
    printf '#!/bin/sh\n[ "$*" != tidy ] || exit 0\necho "dist: $*"\nexit 7\n' >"$room/other"
    chmod +x "$room/other"
    "$1/tools/dist" "$room/other" >/dev/null
    wants "tools/dist writes a dist/" 0 $?
}

builds() {
    if [ -e "$room/builds" ]; then wc -l <"$room/builds"; else echo 0; fi
}

# wants WHAT WANTED GOT
wants() {
    if [ "$2" = "$3" ]; then
        [ -z "$verbose" ] || echo "right: $1"
    else
        printf 'WRONG: %s\n  wanted: %s\n  got: %s\n' "$1" "$2" "$3"
        failed=1
    fi
}

holds() {
    local what=$1
    shift
    if "$@"; then wants "$what" yes yes; else wants "$what" yes no; fi
}

# until_there FILE: waits for a file, at most ten seconds.
until_there() {
    for _ in {1..100}; do
        [ ! -e "$1" ] || return 0
        sleep 0.1
    done
}

# What a start in a fresh clone comes to where the kit is not there: the status, how many lines standard error got, and
# whether one of them has these words.
without_kit() {
    PATH=$room/none "$at/quadq" >"$room/out1" 2>"$room/err1"
    echo "$? $(wc -l <"$room/err1") $(grep -c "$1" "$room/err1")"
}

what_dist_serves() {
    at=$room/fresh
    checkout_with_dist "$at"
    wants "a fresh clone without the kit runs what dist/ has" "dist: a b, status 7, builds 0" \
        "$(PATH=$room/none "$at/quadq" a b 2>"$room/err"), status $?, builds $(builds)"
    wants "and says nothing of its own" "" "$(cat "$room/err")"
    mv "$room/none/sha256sum" "$room/none/kept"
    wants "a later start takes no checksum" "dist: a" "$(PATH=$room/none "$at/quadq" a 2>/dev/null)"
    mv "$room/none/kept" "$room/none/sha256sum"
    touch "$at/crates/low/src/lib.rt"
    wants "another time and the same text" "dist:  0" "$("$at/quadq" 2>/dev/null) $(builds)"
    "$at/quadq" --build 2>/dev/null
    wants "--build builds all the same" "0 1" "$? $(builds)"
    wants "and what was built runs from then on" "first:  1" "$("$at/quadq" 2>/dev/null) $(builds)"
    echo second >"$at/crates/low/src/lib.rt"
    wants "edited sources are built" "second:  2" "$("$at/quadq" 2>/dev/null) $(builds)"

    at=$room/closed
    checkout_with_dist "$at"
    wants "a first start with standard input and error closed" "dist: " "$("$at/quadq" <&- 2>&-)"
    "$at/quadq" >&- 2>/dev/null
    wants "a first start with standard output closed" 7 $?

    at=$room/read_only
    checkout_with_dist "$at"
    # (a file in the place of the folder, since a read-only folder stops no administrator)
    touch "$at/build"
    chmod -R a-w "$at"
    for start in first second; do
        wants "the $start start in a checkout that cannot be written to" "dist: a 7 " \
            "$("$at/quadq" a 2>"$room/err") $? $(cat "$room/err")"
    done
    chmod -R u+w "$at"

    at=$room/both
    checkout_with_dist "$at"
    "$at/quadq" a >"$room/out1" 2>&1 &
    "$at/quadq" b >"$room/out2" 2>&1
    wait $!
    wants "two first starts at once" "dist: a dist: b dist " "$(cat "$room/out1" "$room/out2" | tr '\n' ' ')$(ls "$at/build") "
}

what_dist_does_not_serve() {
    at=$room/edited
    checkout_with_dist "$at"
    echo second >"$at/crates/low/src/lib.rt"
    wants "edited sources without the kit" "70 1 1" \
        "$(without_kit "the sources are not those of dist/quadq, and the Rattle kit's command rt")"
    wants "it prints nothing" "" "$(cat "$room/out1")"
    wants "tools/dist takes no build of other sources" 1 "$("$at/tools/dist" 2>&1 | grep -c 'quadq --build')"

    at=$room/stale
    checkout_with_dist "$at"
    echo "# more" >>"$at/dist/quadq"
    wants "another dist/quadq, without the kit" "70 1 1" "$(without_kit 'not the file that dist/README.md names')"
    wants "another dist/quadq, with the kit" "first:  1" "$("$at/quadq" 2>/dev/null) $(builds)"

    at=$room/missing
    checkout "$at"
    wants "no dist/quadq, without the kit" "70 1 1" "$(without_kit 'there is no dist/quadq of these sources')"
    checkout_with_dist "$at"
    wants "--build without the kit" "70 1" \
        "$(PATH=$room/none "$at/quadq" --build 2>"$room/err1"; echo $?) $(grep -c 'rt, .* not on the PATH' "$room/err1")"
}

builds_and_runs() {
    at=$room/one
    checkout "$at"
    wants "the first start builds and runs" "first: a b, status 7, builds 1" \
        "$("$at/quadq" a b 2>"$room/err"), status $?, builds $(builds)"
    "$at/quadq" a >/dev/null 2>"$room/err"
    wants "a later start builds nothing and says nothing of its own" "7 1 said" "$? $(builds) $(cat "$room/err")"
    ln -s "$at/quadq" "$room/link"
    wants "through a link" "first: x" "$("$room/link" x 2>/dev/null)"
    touch "$at/crates/low/src/lib.rt"
    "$at/quadq" >/dev/null 2>&1
    wants "another time and the same text" 1 "$(builds)"
    echo "-- Another." >"$at/crates/low/proofs/Lemma.antt"
    "$at/quadq" >/dev/null 2>&1
    wants "an edit of a proof" 1 "$(builds)"
    echo second >"$at/crates/low/src/lib.rt"
    wants "an edit of a source" "second:  2" "$("$at/quadq" 2>/dev/null) $(builds)"
    echo "-- A weird." >"$at/crates/low/specs/Word.antt"
    "$at/quadq" >/dev/null 2>&1
    wants "an edit of a definition" 3 "$(builds)"
    rm "$at/crates/low/src/more.rt"
    "$at/quadq" >/dev/null 2>&1
    wants "a source that is removed" 4 "$(builds)"
    printf 'secand\n' >"$room/older"
    touch -d 2001-01-01 "$room/older"
    mv "$room/older" "$at/crates/low/src/lib.rt"
    wants "a source of an older time" "secand:  5" "$("$at/quadq" 2>/dev/null) $(builds)"
    echo "echo third >$at/crates/low/src/lib.rt" >"$room/edit"
    echo fourth >"$at/crates/low/src/lib.rt"
    wants "an edit in mid-build" "third:  7" "$("$at/quadq" 2>/dev/null) $(builds)"
    "$at/quadq" >/dev/null 2>&1
    wants "after it nothing is built" 7 "$(builds)"
    at=$room/out/two
    checkout "$at"
    "$at/quadq" >/dev/null 2>&1
    wants "below a folder named out" "first:  8" "$("$at/quadq" 2>/dev/null) $(builds)"
}

# What the gate comes to: its status and its last line.
gate() {
    "$at/.ci/run" >"$room/out1" 2>"$room/err1"
    echo "$? $(tail -n 1 "$room/out1")"
}

the_gate() {
    at=$room/gate
    checkout "$at"
    wants "the gate without dist/ proves all, and fails" "1 13 passed, 1 failed" "$(gate)"
    holds "it names the command that writes dist/" grep -q 'tools/dist writes it anew' "$room/err1"
    "$at/quadq" >/dev/null 2>&1
    wants "after the gate nothing is built" 1 "$(builds)"
    "$at/tools/dist" >/dev/null
    wants "with dist/ it passes" "0 21 passed, 0 failed" "$(gate)"
    touch "$room/bad"
    wants "it fails on an edit that cannot be applied" "1 20 passed, 1 failed" "$(gate)"
    rm "$room/bad"
    touch "$room/broken"
    wants "it fails where a proof fails" "1 17 passed, 1 failed" "$(gate)"
    rm "$room/broken"
    echo '# more' >>"$at/build/quadq"
    echo "another kit" >"$room/version"
    "$at/tools/dist" "$at/build/quadq" >/dev/null
    echo "a false kit" >"$room/version"
    wants "it fails where dist/quadq has another byte" "1 20 passed, 1 failed" "$(gate)"
    wants "and says that the kit is another" 1 "$(tail -n 3 "$room/err1" | grep -c 'kit another kit.* a false kit')"
    cp "$at/crates/qm_prog/out/qm_prog" "$at/build/quadq"
    "$at/tools/dist" >/dev/null
    printf '#!/bin/sh\nexit 1\n' >"$at/tools/documents"
    before=$(builds)
    wants "a step that fails ends it before the proofs" "1 12 passed, 2 failed $before" "$(gate) $(builds)"
    printf '#!/bin/sh\n' >"$at/tools/documents"
}

closed_streams() {
    at=$room/streams
    checkout "$at"
    wants "standard error closed" "first: " "$("$at/quadq" 2>&-)"
    echo fifth >"$at/crates/low/src/lib.rt"
    "$at/quadq" >/dev/null 2>&-
    wants "standard error closed: the program finds it closed" 13 $?
    echo sixth >"$at/crates/low/src/lib.rt"
    wants "standard input closed" "sixth: " "$("$at/quadq" 2>/dev/null <&-)"
    echo seventh >"$at/crates/low/src/lib.rt"
    "$at/quadq" >&- 2>/dev/null
    wants "standard output closed" 7 $?
}

two_builds_at_once() {
    at=$room/two
    checkout "$at"
    echo 18 >"$room/slow"
    "$at/quadq" >"$room/out1" 2>"$room/err1" &
    until_there "$at/build/log"
    "$at/quadq" >"$room/out2" 2>"$room/err2"
    wait
    wants "two starts at once build once" "first: first:  1" "$(cat "$room/out1" "$room/out2" | tr -d '\n') $(builds)"
    holds "the second says that it waits" grep -q "waiting for it" "$room/err2"
    holds "it says so again" grep -q "still waiting" "$room/err2"
    holds "a long build is not silent" grep -q " s: proving the next crate, 5 of 9 functions" "$room/err1"
    holds "each crate is told" grep -q " s: low is proved, 1 of 2 crates" "$room/err1"
}

waiting_for_the_gate() {
    at=$room/waiting
    checkout "$at"
    echo 18 >"$room/slow"
    touch "$room/waits"
    "$at/quadq" >/dev/null 2>"$room/err1"
    holds "waiting for the gate is told" grep -q "waiting for another rt to finish" "$room/err1"
    holds "and told again" grep -q "still waiting" "$room/err1"
}

builds_that_fail() {
    at=$room/failing
    checkout "$at"
    touch "$room/broken"
    "$at/quadq" >"$room/out1" 2>"$room/err1"
    wants "a build that fails" 70 $?
    holds "it shows the error" grep -q "error: the function low::a has an open goal" "$room/err1"
    holds "and where the log is" grep -q "its whole log is $at/build/log" "$room/err1"
    wants "it shows no statistics" 0 "$(grep -c -e statements -e "checked 17" "$room/err1")"
    wants "it prints nothing" "" "$(cat "$room/out1")"
}

interrupted_while_it_waits() {
    at=$room/interrupted
    checkout "$at"
    echo 4 >"$room/slow"
    "$at/quadq" >"$room/out1" 2>/dev/null &
    until_there "$at/build/log"
    timeout -s TERM 1 "$at/quadq" >/dev/null 2>&1
    holds "interrupted while it waits, it leaves the other's log" test -s "$at/build/log"
    wait
    wants "and the other builds" "first: " "$(cat "$room/out1")"
}

interrupted_while_it_builds() {
    for signal in TERM INT HUP; do
        at=$room/signal_$signal
        checkout "$at"
        echo "31.$$" >"$room/slow"
        # (a shell has its background commands ignore INT)
        python3 - "$at" "$signal" <<'END'
import pathlib, signal, subprocess, sys, time
started = subprocess.Popen([sys.argv[1] + "/quadq"], stdout=subprocess.DEVNULL, stderr=subprocess.DEVNULL)
begun = pathlib.Path(sys.argv[1]) / "crates/qm_prog/out"
for _ in range(100):
    time.sleep(0 if begun.exists() else 0.1)
number = getattr(signal, f"SIG{sys.argv[2]}")
started.send_signal(number)
sys.exit(started.wait(15) != -number)
END
        wants "interrupted by $signal" 0 $?
        wants "it leaves no file" "" "$(find "$at/build" 2>/dev/null)"
        wants "it leaves no process" 0 "$(grep -slzx "31[.]$$" /proc/[0-9]*/cmdline | wc -l)"
    done
}

installing() {
    at=$room/install
    checkout "$at"
    "$at/install.sh" --help >"$room/out1"
    wants "install.sh --help" "0 1" "$? $(grep -c '^usage: ' "$room/out1")"
    "$at/install.sh" --prefix=/x 2>/dev/null
    wants "an unknown option" 2 $?
    "$at/install.sh" "" 2>/dev/null
    wants "an empty PREFIX, before anything is built" "2 0" "$? $(builds)"
    touch "$room/file"
    "$at/install.sh" "$room/file" 2>/dev/null
    wants "a file as PREFIX, before anything is built" "1 0" "$? $(builds)"
    mkdir -p "$room/taken/bin/quadq"
    "$at/install.sh" "$room/taken" 2>/dev/null
    wants "a folder as the target, before anything is built" "1 0" "$? $(builds)"
    (umask 077 && "$at/install.sh" "$room/new prefix" 2>/dev/null)
    wants "installed under a narrow umask" "755 755 755" \
        "$(stat -c %a "$room/new prefix" "$room/new prefix/bin" "$room/new prefix/bin/quadq" | tr '\n' ' ' | sed 's/ $//')"
    wants "what is installed" "bin/quadq bin/quadq-draw-graph share/bash-completion/completions/quadq \
share/man/man1/quadq.1 share/quadq/layout_text.py share/quadq/obj_text.py share/zsh/site-functions/_quadq " \
        "$(cd "$room/new prefix" && find . -type f | sed 's/^..//' | LC_ALL=C sort | tr '\n' ' ')"
    wants "what is installed runs" "first: z" "$("$room/new prefix/bin/quadq" z 2>/dev/null)"
    holds "the script that draws runs" "$room/new prefix/bin/quadq-draw-graph" --help >/dev/null
    echo second >"$at/crates/low/src/lib.rt"
    "$at/quadq" >/dev/null 2>&1
    (ulimit -f 8 && "$at/install.sh" "$room/new prefix" >/dev/null 2>&1)
    wants "no room: it fails, the earlier program stays, and nothing else" "1 first:  quadq quadq-draw-graph " \
        "$? $("$room/new prefix/bin/quadq" 2>/dev/null) $(find "$room/new prefix/bin" -type f -printf '%f\n' | sort | tr '\n' ' ')"
    "$at/install.sh" "$room/new prefix" 2>/dev/null
    wants "installed again" "second: " "$("$room/new prefix/bin/quadq" 2>/dev/null)"
    at=$room/install_dist
    checkout_with_dist "$at"
    PATH=$room/none "$at/install.sh" "$room/third" 2>/dev/null
    wants "installed from dist/, without the kit" "0 dist: z" "$? $("$room/third/bin/quadq" z)"
}

all=$(mktemp -d)
trap 'rm -rf "$all"' EXIT
trials="what_dist_serves what_dist_does_not_serve builds_and_runs the_gate closed_streams two_builds_at_once
    waiting_for_the_gate builds_that_fail interrupted_while_it_waits interrupted_while_it_builds installing"
for trial in $trials; do
    (
        room=$all/$trial
        failed=0
        make_kit
        PATH=$room/bin:$PATH
        cd "$room" || exit 1
        "$trial"
        exit "$failed"
    ) >"$all/$trial.said" 2>&1 &
done
# (no trial is reaped before it is waited for)
failed=0
for trial in $(jobs -p); do
    wait "$trial" || failed=1
done
cat "$all"/*.said
exit "$failed"
