#!/bin/sh
# The scripts ./barfigol and ./test with a toolchain that is played by small scripts: what they say before and while the proofs run, what they say
# where rt is missing or fails or an edit could not be tried, whose exit status they give, how the archive is built behind the proofs, and that no line of
# a failed test can be taken for the verdict.
set -u
cd "$(dirname "$0")/.." || exit 1
made=$(mktemp -d) || exit 1
trap 'rm -rf "$made"' EXIT
failed=0

wrong() { # TEXT
    printf 'wrong: %s\n' "$1"
    failed=1
}

# Says that a file has a line that is matched whole.
has() { # FILE EXPRESSION
    grep -qxE "$2" "$1" || { wrong "no line is '$2' in:"; sed 's/^/    | /' "$1"; }
}

# Says that a run ended with a status.
ended() { # WHAT WANTED FOUND
    [ "$2" -eq "$3" ] || wrong "$1: ended with $3 in place of $2"
}

# A small repository with the scripts under test: three crates, two edits, and tests that hold. Its crates.txt leaves the programs out.
make_tree() {
    rm -rf "$made/tree"
    mkdir -p "$made/tree/tests" "$made/tree/rust" "$made/tree/examples/c" "$made/tree/crates/two/must-fail" "$made/tree/crates/list" "$made/tree/crates/trials"
    cp -R barfigol test scripts "$made/tree/"
    cp examples/c/p4.expected "$made/tree/examples/c/"
    printf 'one:\ntwo: one\nbarfigol_c staticlib: two one\n' >"$made/tree/crates.txt"
    for crate in one two barfigol_c; do
        mkdir -p "$made/tree/crates/$crate/src"
        : >"$made/tree/crates/$crate/src/lib.rt"
    done
    : >"$made/tree/crates/two/must-fail/a.edit"
    : >"$made/tree/crates/two/must-fail/b.edit"
    echo listed >"$made/tree/crates/list/stdout"
    echo listed >"$made/tree/crates/trials/stdout"
    for test in tests/*.sh; do
        printf '#!/bin/sh\nexit 0\n' >"$made/tree/$test"
        chmod +x "$made/tree/$test"
    done
}

# Puts a script on the path of the runs.
play() { # NAME, the script on standard input
    cat >"$made/bin/$1"
    chmod +x "$made/bin/$1"
}

# The commands of the machine that the scripts may use, and the players.
make_path() {
    mkdir "$made/bin"
    for name in awk cat chmod cmp cp cut date dirname find flock grep head id ln mkdir mktemp mv readlink rm sed sh sleep sort tail touch tr uname wc; do
        ln -s "$(command -v "$name")" "$made/bin/$name"
    done
    play cargo <<'END'
#!/bin/sh
mkdir -p ../target/rust/release
printf '#!/bin/sh\necho "the command: $*"\nexit 7\n' >../target/rust/release/barfigol
chmod +x ../target/rust/release/barfigol
END
    play cc <<'END'
#!/bin/sh
while [ $# -gt 1 ] && [ "$1" != -o ]; do shift; done
printf '#!/bin/sh\ncat examples/c/p4.expected\n' >"$2"
chmod +x "$2"
END
    for name in objdump c++ pkg-config minizinc fzn-gecode; do
        play "$name" </dev/null
    done
    play_rt
}

# rt waits after each crate until its progress is told.
play_rt() {
    play rt <<'END'
#!/bin/sh
# Prints lines, and ends where what they say is not told within ten seconds. With QUICK it does not wait.
done_with() { # LINES TOLD
    echo "some words of the prover: 7 passed, 0 failed of something else"
    printf '%s\n' "$1"
    [ "${QUICK:-0}" -eq 0 ] || return
    tries=50
    while [ "$tries" -gt 0 ]; do
        grep -q "$2" "$TOLD" && return
        sleep 0.2
        tries=$((tries - 1))
    done
    echo "not told: $2"
    exit 9
}
proved_one() { # NAME
    printf 'rt: chose --jobs 2 for %s\nfn %s::f: proved\nlogic=proved functions=1 sum=0\n' "$1" "$1"
}
case $1 in
version) echo "${VERSION:-rattle-kit-13f} logic 0" ;;
lib)
    echo lib >>../../calls
    mkdir -p out
    if [ ! -e ../../proved ]; then
        done_with "$(proved_one one)" "[0-9] s so far, crate 1 of up to 3: one proved"
        done_with "$(proved_one two)" "[0-9] s so far, crate 2 of up to 3: two proved"
        [ "${FAIL:-0}" -eq 0 ] || exit "$FAIL"
        done_with "$(proved_one barfigol_c)" "[0-9] s so far, crate 3 of up to 3: barfigol_c proved"
    fi
    : >out/libbarfigol_c.a
    ;;
try)
    echo listed
    echo "run=ended status=0 runners=${RUNNERS:-2} proved=no" >&2
    ;;
ci)
    done_with "rt: one proved" "[0-9] s so far, crate 1 of 3: one proved"
    done_with "rt: two is kept: an earlier run on this machine proved the same files over the same libraries" "[0-9] s so far, crate 2 of 3: two unchanged"
    done_with "rt: barfigol_c proved" "[0-9] s so far, crate 3 of 3: barfigol_c proved"
    done_with "rt: two: trying its must-fail edits (2)" "[0-9] s so far, trying edits of two"
    done_with "rt: must-fail two/a.edit: refused, as it must be: proofs/P.antt:3:4: error: no" "[0-9] s so far, edit 1 of 2: two/a refused"
    if [ "${FAIL:-0}" -ne 0 ]; then
        done_with "rt: must-fail two/b.edit: NOT REFUSED: the crate is still proved with this edit" "[0-9] s so far, edit 2 of 2: two/b NOT REFUSED"
        echo "rt: FAILED: two/b.edit"
        echo "4 passed, 1 failed"
        exit "$FAIL"
    fi
    mkdir -p crates/one/out/rlib
    : >proved
    if [ "${BAD:-0}" -ne 0 ]; then
        done_with "rt: must-fail two/b.edit: BAD EDIT: there is no file src/main.rt" "[0-9] s so far, edit 2 of 2: two/b BAD EDIT"
        echo "rt: ok; handles allowed: none; must-fail edits: 1 refused, 1 bad; every proof and must-fail edit was done in this run"
        echo "4 passed, 0 failed"
        exit
    fi
    done_with "rt: must-fail two/b.edit: refused, as it must be (only by a limit of the prover): no" "[0-9] s so far, edit 2 of 2: two/b refused"
    done_with "rt: list ran (built by Rattle's own compiler), and wrote what its file stdout has" "[0-9] s so far, program list ran as Rattle's own"
    echo "rt: ok; handles allowed: none; must-fail edits: 2 refused${LIMIT-}; every proof and must-fail edit was done in this run"
    echo "5 passed, 0 failed"
    ;;
*) exit 9 ;;
esac
END
}

# Runs a script of the tree; what it writes stands in $made/out and $made/told.
run() { # SCRIPT WORD..
    : >"$made/told"
    (cd "$made/tree" && PATH=$made/bin TOLD=$made/told "$@") >"$made/out" 2>"$made/told"
}

without_rt() {
    make_tree
    mv "$made/bin/rt" "$made/rt"
    for script in ./barfigol ./test; do
        run "$script"
        ended "$script without rt" 2 $?
        has "$made/told" "${script#./}: rt is missing: .* Version rattle-kit-13f was used: 'rt version' prints it\."
        [ ! -s "$made/out" ] || wrong "$script without rt prints something"
    done
    mv "$made/rt" "$made/bin/rt"
}

first_use() {
    make_tree
    run ./barfigol check a.table
    ended "the first use" 7 $?
    has "$made/told" "barfigol: proving and building the library: 3 crates, about 5 minutes the first time"
    has "$made/told" "barfigol: building the command, .*"
    has "$made/out" "the command: check a\.table"
    [ "$(wc -l <"$made/told")" -eq 5 ] || { wrong "the first use tells other lines:"; cat "$made/told"; }
    run ./barfigol again
    ended "the second use" 7 $?
    [ ! -s "$made/told" ] || wrong "the second use tells something"
    touch "$made/tree/crates/one/src/lib.rt"
    run ./barfigol again
    ended "the use after a change" 7 $?
    [ "$(grep -c 'crate . of up to 3' "$made/told")" -eq 3 ] || wrong "after a change of the code nothing is proved"
}

# Of two first uses at the same time, one proves and the other waits for it.
two_at_once() {
    make_tree
    : >"$made/told"
    for use in one other; do
        (cd "$made/tree" && PATH=$made/bin TOLD=$made/told ./barfigol "$use") >>"$made/told" 2>&1 &
    done
    wait
    has "$made/told" "the command: one"
    has "$made/told" "the command: other"
    has "$made/told" "barfigol: waiting for another call that builds"
    [ "$(wc -l <"$made/tree/calls")" -eq 1 ] || wrong "two first uses at once prove twice"
}

on_a_terminal() {
    make_tree
    (cd "$made/tree" && PATH=$made/bin:$PATH TOLD=$made/told TERM=xterm script -qefc './barfigol check a.table' "$made/told") >"$made/out" 2>&1 </dev/null
    ended "the first use on a terminal" 7 $?
    tr '\r' '\n' <"$made/out" | grep -q 'so far, crate 3 of up to 3: barfigol_c proved' || wrong "nothing is told on a terminal"
    [ "$(tr -d '\r' <"$made/out" | grep -c 'crate . of up to 3')" -eq 1 ] || wrong "progress takes more than a line on a terminal"
}

proofs_that_fail() {
    make_tree
    FAIL=3 run ./barfigol check a.table
    ended "a first use whose proofs fail" 2 $?
    has "$made/told" "fn two::f: proved"
    has "$made/told" "barfigol: this failed: rt lib"
    FAIL=3 run ./test
    ended "a test whose proofs fail" 3 $?
    [ "$(tail -n 1 "$made/out")" = "4 passed, 1 failed" ] || wrong "the verdict of rt is not the last line"
}

another_version() {
    make_tree
    VERSION=rattle-kit-4 run ./barfigol check a.table
    ended "another version of rt" 7 $?
    has "$made/told" "barfigol: rt is of version rattle-kit-4 logic 0, and the proofs were made with rattle-kit-13f"
}

# What a reader takes for a verdict.
verdicts() {
    grep -cE '^[0-9]+ passed, [0-9]+ failed' "$1"
}

whole_test() {
    make_tree
    printf '#!/bin/sh\nexit 0\n' >"$made/tree/barfigol"
    run ./test
    ended "a test that holds" 0 $?
    [ "$(tail -n 1 "$made/out")" = "5 passed, 0 failed" ] || wrong "the verdict of rt is not the last line"
    cat "$made/told" "$made/out" >"$made/both"
    [ "$(verdicts "$made/both")" -eq 1 ] || wrong "a line before the last one looks like a verdict"
    has "$made/told" "test: proving 3 crates and trying 2 edits; .* 12 to 20 minutes on four processors"
    has "$made/told" "test: trying: from C"
}

# An edit that rt could not try fails the test, though rt ends well; one that only a limit of the prover refused does not.
bad_edit() {
    make_tree
    BAD=1 run ./test
    ended "a test with a bad edit" 1 $?
    [ "$(tail -n 1 "$made/out")" = "must-fail edits: FAILED, for not each of the 2 was refused" ] || wrong "a bad edit is not named last"
    [ "$(verdicts "$made/out")" -eq 0 ] || wrong "a test with a bad edit looks like a verdict"
    make_tree
    printf '#!/bin/sh\nexit 0\n' >"$made/tree/barfigol"
    QUICK=1 LIMIT=", 1 of them only by a limit" run ./test
    ended "a test whose edit a limit refused" 0 $?
}

# A program that only one of rt's two runs gave an answer of.
unanswered() {
    make_tree
    QUICK=1 RUNNERS=1 run ./test
    ended "a test whose program ran once" 1 $?
    [ "$(tail -n 1 "$made/out")" = "the programs on the interpreter and compiled with checks: FAILED" ] || wrong "the program's run is not named last"
}

# Behind the proofs of a checkout where nothing was built before, the archive is built over the libraries of `rt ci`. Elsewhere, or where that fails, `rt lib`
# builds it.
archive_behind_proofs() {
    play rattle <<'END'
#!/bin/sh
echo "$*" >>../../built
[ ! -e ../../refused ] || exit 1
while [ $# -gt 1 ] && [ "$1" != -o ]; do shift; done
: >"$2"
END
    for case in clean refused built; do
        make_tree
        printf '#!/bin/sh\nexit 0\n' >"$made/tree/barfigol"
        case $case in
        clean) wanted=rattle ;;
        refused) wanted="rattle rt" && : >"$made/tree/refused" ;;
        built) wanted=rt && mkdir -p "$made/tree/crates/two/out/rlib" ;;
        esac
        QUICK=1 run ./test
        ended "a test of a checkout that is $case" 0 $?
        [ -e "$made/tree/target/staticlib/libbarfigol.a" ] || wrong "$case: there is no archive"
        by=$(cd "$made/tree" && { [ ! -e built ] || echo rattle; [ ! -e calls ] || echo rt; } | paste -sd ' ')
        [ "$by" = "$wanted" ] || wrong "$case: the archive is built by $by"
    done
    rm "$made/bin/rattle"
}

# Every line that a failed test prints is shown, whatever it counts.
failed_test() {
    make_tree
    printf '#!/bin/sh\necho "10 failed"; echo "12 passed, 0 failed"; echo "test result: ok. 3 passed; 0 failed"; exit 1\n' >"$made/tree/tests/list.sh"
    QUICK=1 run ./test
    ended "a test with a fault" 1 $?
    has "$made/out" " +\| 10 failed"
    has "$made/out" " +\| 12 passed, 0 failed"
    has "$made/out" " +\| test result: ok\. 3 passed; 0 failed"
    [ "$(verdicts "$made/out")" -eq 0 ] || wrong "a failed test looks like a verdict"
    [ "$(tail -n 1 "$made/out")" = "the listing program: FAILED" ] || wrong "the failed test is not named last"
}

# The figures and the version that the scripts say stand on the first page too.
on_the_first_page() {
    for text in rattle-kit-13f "about 5 minutes" "12 to 20 minutes on four processors"; do
        grep -q "$text" README.md || wrong "README.md does not say: $text"
    done
}

make_path
without_rt
first_use
two_at_once
on_a_terminal
proofs_that_fail
another_version
whole_test
bad_edit
unanswered
archive_behind_proofs
failed_test
on_the_first_page
exit "$failed"
