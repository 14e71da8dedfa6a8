#!/bin/sh
# What must not compile: each program in scripts/misuse but `right` misuses a link, and the compiler has to refuse it for that;
# `right` is the same program without the misuse, and has to be accepted. Nothing is proved here.
set -eu
here=$(cd "$(dirname "$0")/.." && pwd)
copy=$(mktemp -d)
trap 'rm -rf "$copy"' EXIT
mkdir -p "$copy/crates/misuse/src"
for crate in card table reserved library deck link; do
    mkdir "$copy/crates/$crate"
    # A crate that needs no proofs has no folder for them.
    for part in src specs proofs; do
        if [ -d "$here/crates/$crate/$part" ]; then cp -r "$here/crates/$crate/$part" "$copy/crates/$crate/"; fi
    done
    grep "^$crate:" "$here/crates.txt" >> "$copy/crates.txt"
done
echo "misuse: card table library deck link" >> "$copy/crates.txt"
cd "$copy/crates/misuse"

# A program's name, and the error that it has to be refused with; none where it has to be accepted.
try() {
    cp "$here/scripts/misuse/$1.txt" src/main.rt
    if rt try > said 2>&1; then answer=accepted; else answer=refused; fi
    expected=accepted
    if [ -n "$2" ]; then
        expected=refused
        if [ "$answer" = refused ] && ! grep -q "error\[$2\]" said; then answer="refused, but not by $2"; fi
    fi
    if [ "$answer" != "$expected" ]; then
        cat said
        echo "misuse: $1 was $answer"
        exit 1
    fi
    echo "misuse: $1 $answer, as it must be"
}

try right ""
try include_after_fix borrow-e0382
try include_in_program unknown-method
try link_let_go linear-value-let-go
try program_let_go linear-value-let-go
