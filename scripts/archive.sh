#!/bin/sh
# Proves the library and writes its archive, target/staticlib/libbarfigol.a, whether it is stale or not.
set -u
called=archive
root=$(dirname "$(dirname "$(readlink -f "$0")")") || exit 2
. "$root/scripts/tools.sh"
. "$root/scripts/progress.sh"
. "$root/scripts/build.sh"

work=$(mktemp -d) || exit 2
trap 'rm -rf "$work"' EXIT
trap 'exit 130' INT TERM
be_alone
build_archive
