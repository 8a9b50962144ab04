#!/usr/bin/env bash
# Builds the archive that C links, target/staticlib/libhost.a, unless it is newer than all that it is made of. An archive of a crate has that crate's
# own exports alone: each room of the host, a static library, is proved and built by itself (what rt check kept serves), and their objects are put into one.
set -euo pipefail
cd "$(dirname "$0")/.."
archive=target/staticlib/libhost.a
if [ -e "$archive" ] && [ -z "$(find crates.txt crates -regex 'crates/[^/]*/out' -prune -o \( -path 'crates/*/*' -o -name crates.txt \) -newer "$archive" -print -quit)" ]; then exit; fi
ar=$(dirname "$(rt doc)")/toolchain/bin/llvm-ar # the kit's: a machine with a C compiler may have none, or one that cannot take whole archives in
rooms=($(grep -rl --include='*.rt' no_mangle crates/*/src | cut -d/ -f2 | sort -u))
archives=()
for room in "${rooms[@]}"; do
  (cd "crates/$room" && rt lib)
  archives+=("crates/$room/out/lib$room.a")
done
mkdir -p target/staticlib
rm -f "$archive" "$archive.new"
# Each room's object is named after it. What rooms share is inside of each, and seen by no other: only the exports are names of the archive.
"$ar" qcsL "$archive.new" "${archives[@]}"
mv "$archive.new" "$archive"
