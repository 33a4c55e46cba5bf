#!/usr/bin/env bash
# Proves and builds the library for C: build/library/libtozbirem.a, libtozbirem.so and tozbirem.h.
#
#   tools/library.sh [python] [test]     python: puts it into the Python package, for `pip install ./python`
#                                        test: runs tools/test_library.sh
#
# It needs rt, python3, a C compiler (CC, else cc) and ar. What is proved is kept in crates/*/out.
set -eu -o pipefail
top=$(cd "$(dirname "$(readlink -f "${BASH_SOURCE[0]}")")/.." && pwd)
out=$top/build/library
for word in "$@"; do
    case $word in
    python | test) ;;
    *) echo 'usage: tools/library.sh [python] [test]' >&2; exit 2 ;;
    esac
done
for name in rt python3 ar "${CC:-cc}"; do
    command -v "$name" >/dev/null || { echo "library: $name is not there" >&2; exit 70; }
done
mkdir -p "$out"
work=$(mktemp -d)
trap 'rm -rf "$work"' EXIT

# The archive of the crate, and the heap that it calls, which is an archive of the toolchain.
python3 "$top/tools/build.py" --library
kit=$(dirname "$(dirname "$(readlink -f "$(command -v rt)")")")
heap=$kit/c/liblibc_c.a
[ -e "$heap" ] || { echo "library: the toolchain has no c/liblibc_c.a beside rt" >&2; exit 70; }
cp "$top/crates/dsp_c/out/libdsp_c.a" "$work/libtozbirem.a"
chmod u+w "$work/libtozbirem.a"
(cd "$work" && ar x "$heap" && ar q libtozbirem.a ./*.o && ranlib libtozbirem.a) 2>&1 | sed 's/^/library: /' >&2

# The shared library shows the calls alone.
printf '{ global: tozbirem_*; local: *; };\n' >"$work/exports"
"${CC:-cc}" -shared -o "$work/libtozbirem.so" -Wl,--whole-archive "$work/libtozbirem.a" -Wl,--no-whole-archive \
    -Wl,--version-script="$work/exports" -Wl,-z,defs -Wl,-soname,libtozbirem.so
cp "$top/include/tozbirem.h" "$work/libtozbirem.a" "$work/libtozbirem.so" "$out/"

for word in "$@"; do
    case $word in
    python) cp "$out/libtozbirem.so" "$top/python/tozbirem/" ;;
    test) "$top/tools/test_library.sh" ;;
    esac
done
echo "$out/libtozbirem.a $out/libtozbirem.so $out/tozbirem.h"
