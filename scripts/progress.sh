# Runs rt and tells on standard error how far it is. A script sets `called` to its name, `root` to the repository and `work` to a folder of its own,
# and reads this file.

# The crates that a crate of crates.txt names, and how many they are with itself.
named_by() { # NAME
    sed -n "s/^$1\( staticlib\)\{0,1\}://p" "$root/crates.txt"
}
crates_of() { # NAME
    named_by "$1" | wc -w | awk '{ print $1 + 1 }'
}

# How many crates, and how many edits that must be refused, the whole repository has.
all_crates() {
    grep -c '^[A-Za-z_]' "$root/crates.txt"
}
all_edits() {
    find "$root/crates" -path '*/must-fail/*.edit' | wc -l
}

# Whether standard error is a terminal that can write a line again.
on_terminal() {
    [ -t 2 ] && [ "${TERM:-dumb}" != dumb ]
}

# Tells what is done: on a terminal in one line that is written again, elsewhere a line for each thing.
tell_progress() { # CRATES EDITS BEGAN
    set -- -v "called=$called" -v "crates=$1" -v "edits=$2" -v "seconds=$(($(date +%s) - $3))" -v "shown=$shown" -f "$root/scripts/progress.awk" "$work/printed"
    if on_terminal; then
        # A line that is wider than the terminal could not be written again.
        printf '\r\033[K%s' "$(awk -v last=1 "$@" | cut -c 1-79)" >&2
    else
        told=$(awk "$@")
        [ -n "$told" ] || return
        printf '%s\n' "$told" >&2
        shown=$((shown + $(printf '%s\n' "$told" | wc -l)))
    fi
}

# Tells until the command has ended, or the script with it.
watch_progress() { # CRATES EDITS BEGAN
    shown=0
    while [ -d "$work" ] && [ ! -e "$work/ended" ] && kill -0 $$ 2>/dev/null; do
        tell_progress "$@"
        sleep 1
    done
    [ -d "$work" ] || return
    tell_progress "$@"
    if on_terminal; then echo >&2; fi
}

# Runs a command of rt's and gives its exit status. What it prints is kept in $work/printed. The command is in the foreground, so that an
# interrupt from the keyboard ends it.
with_progress() { # CRATES EDITS COMMAND..
    crates=$1 edits=$2
    shift 2
    rm -f "$work/ended"
    : >"$work/printed"
    watch_progress "$crates" "$edits" "$(date +%s)" &
    watcher=$!
    "$@" >>"$work/printed" 2>&1
    ended=$?
    : >"$work/ended"
    wait "$watcher"
    return "$ended"
}
