#!/bin/sh
# Builds LINKMAP (which proves all that it stands on; minutes the first time), and runs it on the sample tray.
set -eu
cd "$(dirname "$0")/.."
mkdir -p target/bin
said=$(pwd)/target/linkmap.log
cd crates/linkmap
rm -f out/linkmap
# Proves and builds; the run that follows finds no tray in this folder, and ends.
rt run < /dev/null > "$said" 2>&1 || test -x out/linkmap || { cat "$said"; exit 1; }
cp out/linkmap ../../target/bin/
echo "Typed:"
sed 's/^/  /' stdin
echo "Printed:"
cd data
../../../target/bin/linkmap < ../stdin
