#!/bin/sh
# One version: the header's is that of every Rust crate and of the command.
# versions.sh PROGRAM
set -u
cd "$(dirname "$0")/.." || exit 1
version=$(sed -n 's/^#define BARFIGOL_VERSION "\(.*\)"$/\1/p' include/barfigol.h)
failed=0

same() { # WHERE FOUND
    if [ -z "$version" ] || [ "$2" != "$version" ]; then
        echo "$1 says version $2, the header $version"
        failed=1
    fi
}

for crate in rust/*/Cargo.toml; do
    same "$crate" "$(sed -n 's/^version = "\(.*\)"$/\1/p' "$crate")"
done
same "the command" "$("$1" --version | sed -n 's/^barfigol //p')"
exit "$failed"
