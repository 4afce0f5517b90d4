# Builds the proved archive and the command where they are missing or older than the code. A script sets `called` and `root`, and reads this
# file after tools.sh and progress.sh.

archive=$root/target/staticlib/libbarfigol.a
program=$root/target/rust/release/barfigol

# Whether a file is missing or older than one of its sources.
stale() { # FILE SOURCE..
    made=$1
    shift
    [ ! -e "$made" ] || [ -n "$(find "$@" -type f -newer "$made" 2>/dev/null | head -n 1)" ]
}

archive_is_stale() {
    stale "$archive" "$root"/crates/*/src
}

program_is_stale() {
    stale "$program" "$archive" "$root/rust"
}

# Ends the script where a command failed, with what it printed.
build_failed() { # COMMAND..
    cat "$work/printed" >&2
    say "this failed: $*"
    exit 2
}

# Puts the archive that rt wrote in its place, whole at every moment.
put_archive() {
    mkdir -p "${archive%/*}" && cp "$root/crates/barfigol_c/out/libbarfigol_c.a" "$archive.new" && mv -f "$archive.new" "$archive" && touch "$archive"
}

# The time that is said here is that of a first build; README.md has it too. Of a library that is built already rt says nothing.
build_archive() {
    need_rt && need cc gcc libc6-dev || exit 2
    crates=$(crates_of barfigol_c)
    say "proving and building the library: $crates crates, about 5 minutes the first time"
    cd "$root/crates/barfigol_c" && with_progress "up to $crates" 0 rt lib && put_archive || build_failed rt lib
}

# Whether no library of the repository was built yet in this checkout.
nothing_built() {
    for made in "$root"/crates/*/out/rlib; do
        [ ! -e "$made" ] || return
    done
}

# Builds the archive right behind `rt ci`, in a checkout where nothing was built before: each library that stands there is then what `rt ci` made of the
# files as they are. `rt lib` takes none of them and would prove them all once more. So this calls the toolchain as `rt ci` does for what it runs, and the
# exports alone are proved again, over those libraries.
archive_over_ci() (
    home=$(dirname "$(dirname "$(readlink -f "$(command -v rt)")")")
    [ -x "$home/bin/rattle" ] || exit
    set -- --crate-name barfigol_c src/lib.rt --crate-type staticlib --links barfigol_c= --jobs 1 --backend llvm --toolchain "$home/toolchain" \
        --antt-project "$home/rattle/logic/antt-project.json" --logic-built "$home/logic_built" --extern "std=$home/rlibs/std.rlib" -L "dependency=$home/rlibs"
    for crate in $(named_by barfigol_c); do
        set -- "$@" --extern "$crate=$root/crates/$crate/out/rlib/$crate.rlib"
    done
    cd "$root/crates/barfigol_c" && mkdir -p out && "$home/bin/rattle" build "$@" -o out/libbarfigol_c.a && put_archive
)

build_program() {
    need cc gcc libc6-dev && need cargo cargo || exit 2
    say "building the command, less than a minute the first time"
    cd "$root/rust" && cargo build --release --offline -p barfigol_command >"$work/printed" 2>&1 ||
        build_failed cargo build --release --offline -p barfigol_command
    touch "$program"
}

# Waits until no other call builds: two at once would write the same files.
be_alone() {
    mkdir -p "$root/target" && exec 9>"$root/target/building" || exit 2
    command -v flock >/dev/null 2>&1 || return 0
    flock -n 9 && return
    say "waiting for another call that builds"
    flock 9
}

# Builds what is stale, in a shell of its own: the folder of the one who called stays.
build() {
    archive_is_stale || program_is_stale || return 0
    (
        work=$(mktemp -d) || exit 2
        trap 'rm -rf "$work"' EXIT
        trap 'exit 130' INT TERM
        be_alone
        if archive_is_stale; then build_archive; fi
        if program_is_stale; then build_program; fi
    )
}
