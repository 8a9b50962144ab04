#!/usr/bin/env bash
# Lists the capture on standard input: ./list.sh < capture
# The first call proves and builds the program, which takes some minutes, and says so on standard error. After a change of the crates: rt run, in crates/list.
set -euo pipefail
here=$(cd "$(dirname "$0")" && pwd)
program=$here/crates/list/out/list
if [ ! -x "$program" ]; then
  echo "list.sh: building the program; this happens once" >&2
  (cd "$here/crates/list" && rt run < /dev/null > /dev/null)
fi
exec "$program"
