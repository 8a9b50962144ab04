#!/usr/bin/env bash
# Puts the header, the archive and a pkg-config file under a prefix: install.sh PREFIX. Builds the archive, which proves it, where that is not done.
set -euo pipefail
mkdir -p "${1:?install.sh PREFIX}/include" "$1/lib/pkgconfig"
prefix=$(cd "$1" && pwd)
cd "$(dirname "$0")"
bash tools/archive.sh
cp include/buzzgarland.h "$prefix/include/"
cp target/staticlib/libhost.a "$prefix/lib/libbuzzgarland.a"
cat > "$prefix/lib/pkgconfig/buzzgarland.pc" <<END
prefix=$prefix
Name: buzzgarland
Description: the proved core of a converter on a SerialLite II link
Version: 1.0
Cflags: -I\${prefix}/include
Libs: -L\${prefix}/lib -lbuzzgarland
END
