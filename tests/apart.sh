#!/bin/sh
# "a slot number handed where a variable number is wanted should not get past the compiler": a crate that hands one over is refused by the
# compiler for that reason, and its twin with the right number is accepted. The two stand in a small repository of their own outside this one.
set -u
cd "$(dirname "$0")/.." || exit 2
where=$(mktemp -d) || exit 2
trap 'rm -rf "$where"' EXIT
mkdir -p "$where/crates/right/src" "$where/crates/wrong/src"
for crate in numbers language table; do
    mkdir "$where/crates/$crate"
    for part in src specs proofs; do
        [ ! -d "crates/$crate/$part" ] || cp -R "crates/$crate/$part" "$where/crates/$crate/"
    done
done
cat >"$where/crates.txt" <<'END'
numbers:
language: numbers
table: language numbers
right: table language numbers
wrong: table language numbers
END
cat >"$where/crates/right/src/lib.rt" <<'END'
#![tactic(auto)]

use table::{NodeNumber, VariableNumber, SlotNumber, ArrayNumber};

fn variable(v: VariableNumber) -> u32 {
    v.0
}

pub fn ask(n: NodeNumber, v: VariableNumber, s: SlotNumber, a: ArrayNumber) -> u32 {
    variable(v)
}
END

cd "$where" || exit 2
# Checks a crate, with what that prints in CRATE.out.
check() { # CRATE
    (cd "crates/$1" && rt check) >"$1.out" 2>&1
}

if ! check right; then
    cat right.out
    echo "apart: the twin with the right number is not accepted"
    exit 1
fi
for other in n s a; do
    sed "s/variable(v)\$/variable($other)/" crates/right/src/lib.rt >crates/wrong/src/lib.rt
    if check wrong || ! grep -q 'error\[mismatched-types\]: expected `VariableNumber`' wrong.out; then
        cat wrong.out
        echo "apart: $other handed over as a variable number is not refused for its type"
        exit 1
    fi
done
echo "apart: a node, slot or array number is no variable number"
