# The commands that the scripts at the root need, and what is said where one is missing. A script sets `called` to its name and reads this file.

# The version of the Rattle toolchain that made the proofs: the first word that `rt version` prints.
kit=rattle-kit-13f

# Says a text to the one who called the script.
say() {
    printf '%s: %s\n' "$called" "$*" >&2
}

# need COMMAND PACKAGE..: installs Debian's packages where the command is missing, and shows what that printed only where it fails.
need() {
    command -v "$1" >/dev/null 2>&1 && return
    missing=$1
    shift
    say "installing $* from Debian's packages: $missing is missing"
    printed=$( (apt-get update && apt-get install -y --no-install-recommends "$@") 2>&1) && return
    printf '%s\n' "$printed" >&2
    say "$missing is missing, and installing $* failed"
    return 2
}

# Whether rt is there. Another version may do as well, so it is only named.
need_rt() {
    if ! command -v rt >/dev/null 2>&1; then
        say "rt is missing: the Rattle toolchain, which proves the code and compiles it. Version $kit was used: 'rt version' prints it."
        say "Put its folder bin/ on the path, and call this again."
        return 2
    fi
    found=$(rt version 2>/dev/null)
    [ "${found%% *}" = "$kit" ] || say "rt is of version ${found:-unknown}, and the proofs were made with $kit"
}
