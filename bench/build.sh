#!/bin/sh
# Builds a program of ours into a file, as the gate builds it or for a processor that is named:  bench/build.sh CRATE FILE [CPU]
# The toolchain is called with the words that the gate uses, and with --cpu CPU where one is named; its verdict is printed, and the build fails where that is not `logic=proved` for that processor. The program left in crates/CRATE/out is the one that was built last.
set -e
crate=$1
file=$(realpath "$2")
cpu=${3:-x86-64-v2}
cd "$(dirname "$0")/../crates/$crate"
# what was built before is built again, so that there is a verdict to show
rm -f "out/$crate.stamp"
said=$(rt run ${3:+--cpu "$3"} < /dev/null 2>&1) || { printf '%s\n' "$said" >&2; exit 1; }
if ! printf '%s\n' "$said" | grep "^logic=proved .* cpu=$cpu "; then
    echo "$crate: no verdict logic=proved for $cpu" >&2
    exit 1
fi
cp "out/$crate" "$file"
