#!/bin/sh
# ./install into folders of its own: what is there afterwards, that programs in C and C++ are built and run against it by pkg-config, with the
# shared library and with the archive, and that nothing is left when it is taken away again.
set -u
cd "$(dirname "$0")/.." || exit 1
made=$(mktemp -d) || exit 1
trap 'rm -rf "$made"' EXIT
version=$(sed -n 's/^#define BARFIGOL_VERSION "\(.*\)"$/\1/p' include/barfigol.h)
soname=libbarfigol.so.${version%.*}
prefix=$made/prefix
export PKG_CONFIG_PATH="$prefix/lib/pkgconfig"

stop() { # TEXT
    printf 'wrong: %s\n' "$1"
    exit 1
}

# The paths of all files and links below a folder.
files_below() { # FOLDER
    (cd "$1" && find . ! -type d | sort)
}

install_all() {
    ./install PREFIX="$prefix" >"$made/said" || stop "./install failed"
    while IFS= read -r path; do
        [ -s "$path" ] || stop "$path is missing or empty"
    done <"$made/said"
    files_below "$prefix" >"$made/files"
    sed "s|^$prefix|.|" "$made/said" | sort | cmp - "$made/files" || stop "other files were written than named"
    for file in bin/barfigol include/barfigol.h lib/libbarfigol.a "lib/$soname" lib/libbarfigol.so lib/pkgconfig/barfigol.pc share/man/man1/barfigol.1 share/doc/barfigol/TABLE.md; do
        grep -qxF "./$file" "$made/files" || stop "$file is not installed"
    done
}

# A package: the same files below another folder, whose name stands in none of them; and make does the same.
install_package() {
    package="$made/a package"
    ./install DESTDIR="$package" PREFIX=/usr >"$made/said" || stop "./install with DESTDIR failed"
    files_below "$package/usr" | cmp - "$made/files" || stop "a package has other files"
    [ "$(files_below "$package" | wc -l)" -eq "$(wc -l <"$made/files")" ] || stop "a package has files outside its prefix"
    grep -qx 'prefix=/usr' "$package/usr/lib/pkgconfig/barfigol.pc" || stop "the prefix of a package"
    grep -rqF "$made" "$package" && stop "a file of a package names the folder it was made in"
    command -v make >/dev/null 2>&1 || return 0
    make -s install PREFIX="$made/by make" >/dev/null 2>&1 && stop "a prefix that a pkg-config file cannot hold is taken"
    make -s install PREFIX="$made/made" >/dev/null 2>&1 || stop "make install failed"
    files_below "$made/made" | cmp - "$made/files" || stop "make installs other files"
    make -s uninstall PREFIX="$made/made" || stop "make uninstall failed"
    [ -z "$(files_below "$made/made")" ] || stop "make uninstall leaves something"
}

# Builds the example with a compiler and flags, says whether it asks for the shared library, and runs it.
build_and_run() { # WHAT SHARED COMMAND..
    what=$1 wanted=$2
    shift 2
    "$@" -o "$made/program" || stop "$what: not built"
    found=no
    readelf -d "$made/program" | grep -q "NEEDED.*\[$soname\]" && found=yes
    [ "$found" = "$wanted" ] || stop "$what: the shared library is asked for: $found"
    LD_LIBRARY_PATH=$prefix/lib "$made/program" | cmp - examples/c/p4.expected || stop "$what: it prints something else"
    echo "$what: as it should be"
}

use_from_c() {
    flags=$(pkg-config --cflags barfigol) && libs=$(pkg-config --libs barfigol) && archive=$(pkg-config --variable=archive barfigol) ||
        stop "pkg-config does not know barfigol"
    [ "$(pkg-config --modversion barfigol)" = "$version" ] || stop "pkg-config says another version"
    c="cc -std=c11 -O2 -Wall -Wextra -pedantic -Werror $flags examples/c/p4.c"
    cpp="c++ -std=c++17 -O2 -Wall -Wextra -pedantic -Werror $flags -x c++ examples/c/p4.c -x none"
    build_and_run "C, shared" yes $c $libs
    build_and_run "C, archive" no $c "$archive"
    build_and_run "C, all static" no $c -static $(pkg-config --static --libs barfigol)
    build_and_run "C++, shared" yes $cpp $libs
    build_and_run "C++, archive" no $cpp "$archive"
}

# The shared library exports the three calls, runs at any address, and its stack is not executable.
look_at_shared() {
    library=$prefix/lib/$soname
    [ "$(nm -D --defined-only "$library" | awk '{ print $3 }' | sort | tr '\n' ' ')" = "barfigol_check barfigol_evaluate barfigol_translate " ] ||
        stop "the shared library exports something else"
    readelf -d "$library" | grep -q "SONAME.*\[$soname\]" || stop "the name of the shared library"
    readelf -d "$library" | grep -q TEXTREL && stop "the shared library is not position independent"
    readelf -lW "$library" | grep 'GNU_STACK' | grep -q 'RWE' && stop "the shared library asks for an executable stack"
    tests/probes.sh "$library" >/dev/null || stop "registers at large frames of the shared library"
}

use_command() {
    command=$prefix/bin/barfigol
    [ "$("$command" check examples/p4.table)" = "$(./barfigol check examples/p4.table)" ] || stop "the installed command answers something else"
    tests/versions.sh "$command" || stop "the versions differ"
    grep -q '^\.TH' "$prefix/share/man/man1/barfigol.1" || stop "the man page has no title"
    grep -qF "$version" "$prefix/share/man/man1/barfigol.1" || stop "the man page has another version"
    for file in bash-completion/completions/barfigol zsh/site-functions/_barfigol fish/vendor_completions.d/barfigol.fish; do
        grep -q translate "$prefix/share/$file" || stop "the completions in $file do not know translate"
    done
}

# What the installed pages name by a link is installed too.
look_at_pages() {
    cd "$prefix/share/doc/barfigol" || stop "no pages are installed"
    names=$(sed -n 's/.*](\([^)#]*\)).*/\1/p' ./*.md | grep -v '^https\{0,1\}:' | sort -u)
    [ -n "$names" ] || stop "the installed pages have no links"
    for name in $names; do
        [ -s "$name" ] || stop "the installed pages name $name, which is not there"
    done
    cd "$OLDPWD" || exit 1
}

# What others put beside the files stays, and a second time is no failure.
uninstall() {
    : >"$prefix/lib/other.a"
    for time in first second; do
        ./install --uninstall PREFIX="$prefix" || stop "./install --uninstall failed the $time time"
    done
    [ "$(files_below "$prefix")" = ./lib/other.a ] || stop "after --uninstall: $(files_below "$prefix")"
    [ ! -e "$prefix/share/doc/barfigol" ] || stop "the folder of the documents is left"
}

misuses() {
    for word in PREFIX=here LIBDIR=lib --unknown 'PREFIX=/a b'; do
        ./install DESTDIR="$made/none" "$word" >/dev/null 2>"$made/said"
        [ $? -eq 2 ] || stop "$word is not refused with 2"
        grep -q '^usage: ./install' "$made/said" || stop "$word: no usage"
    done
    [ ! -e "$made/none" ] || stop "a misuse writes something"
}

install_all
install_package
use_from_c
look_at_shared
use_command
look_at_pages
uninstall
misuses
