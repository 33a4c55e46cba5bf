#!/usr/bin/env bash
# Tests the library that tools/library.sh has built: the header by each compiler that is here, with the archive and
# the shared library; the examples; that header, exports and Python declare the same; bad arguments, refused
# allocations and threads; the Python package over the outside cases, with numpy (where it is there) and without; and
# `pip install ./python` into an empty environment.
. "$(dirname "$(readlink -f "${BASH_SOURCE[0]}")")/checking.sh"
export PYTHONDONTWRITEBYTECODE=1
out=${TOZBIREM_BUILD:-$top/build/library}
strict="-Wall -Wextra -Werror -pedantic -I $out"

# Builds a C program as C99 or C++11, with the archive or the shared library: built COMPILER KIND SOURCE OUT
built() {
    local language='-std=c99' link="$out/libtozbirem.a"
    case $1 in *++) language='-std=c++11 -x c++' ;; esac
    [ "$2" = static ] || link="-L$out -ltozbirem -Wl,-rpath,$out"
    # (-x none: what follows the source is no source)
    "$1" $language $strict "$3" -x none $link -lpthread -o "$4"
}

compiled() {
    local cc kind source name
    for cc in gcc clang g++ clang++; do
        has $cc || continue
        for kind in static shared; do
            for source in "$top"/examples/library/*.c "$top/tools/library/calls.c"; do
                name=$(basename "$source" .c)
                check "$cc, $kind: $name" built $cc $kind "$source" "$folder/$name.$cc.$kind"
            done
        done
    done
}

# Each program that was built, once.
examples() {
    local program
    for program in "$folder"/fir.*; do
        check "${program##*/}" python3 "$top/tools/library/examples.py" fir "$program"
    done
    for program in "$folder"/biquad.*; do
        rm -f "$folder/state"
        check "${program##*/}" python3 "$top/tools/library/examples.py" biquad "$program" "$folder/state"
    done
    for program in "$folder"/device.*; do
        check "${program##*/}" python3 "$top/tools/library/examples.py" device "$program"
    done
    for program in "$folder"/calls.*; do
        check "${program##*/}" "$program"
    done
    check 'the lines that build the examples' one_line
    check 'the lines of README.md' front_page
}

# The C of the front page, in a program.
front_page() {
    {
        printf '#include "tozbirem.h"\n#include <stdio.h>\nint main(void) {\nint16_t input[256] = {1000, 1000}, output[256];\n'
        sed -n '/^```c$/,/^```$/{/^```/d;p}' "$top/README.md"
        printf 'return !(printf("%%d", output[1]) && given == 0 && output[1] == 750);\n}\n'
    } >"$folder/front.c"
    cc -std=c99 -I "$out" "$folder/front.c" "$out/libtozbirem.a" -o "$folder/front" && "$folder/front"
}

# The commands in the comments of the examples, in a folder that has links to the top.
one_line() {
    local source place=$folder/line
    mkdir -p "$place"
    ln -sfn "$top/examples" "$place/examples"
    mkdir -p "$place/build"
    ln -sfn "$out" "$place/build/library"
    for source in "$top"/examples/library/*.c; do
        sed -n 's/^ \*     //p' "$source" >"$place/commands"
        (cd "$place" && bash -eu commands) || return
    done
}

exports() {
    check 'the exports' test "$(nm -D --defined-only "$out/libtozbirem.so" | awk '{ print $3 }' | sort | tr '\n' ' ')" = \
        "$(grep -ohE 'extern "C" fn tozbirem_\w+' -r "$top/crates/dsp_c/src" | awk '{ print $4 }' | sort | tr '\n' ' ')"
    check 'the declarations' python3 "$top/tools/library/declarations.py"
    check 'no other symbol is needed but of the C library' test -z \
        "$(nm -D --undefined-only "$out/libtozbirem.so" | awk '{ print $2 }' | grep -vE '@|^(__cxa_finalize|__gmon_start__|_ITM_)' | grep -vE '^(malloc|realloc|free|mem(cpy|move|set|cmp)|posix_memalign|aligned_alloc|abort)')"
}

memory() {
    has cc || return
    check 'each allocation refused, built' cc -std=c99 $strict -Wl,--wrap=malloc -Wl,--wrap=realloc -Wl,--wrap=free \
        -Wl,--wrap=posix_memalign -Wl,--wrap=aligned_alloc "$top/tools/library/refuse.c" "$out/libtozbirem.a" -o "$folder/refuse"
    check 'each allocation refused' "$folder/refuse"
    if has valgrind; then
        cc -std=c99 -I "$out" "$top/tools/library/calls.c" "$out/libtozbirem.a" -lpthread -o "$folder/watched"
        check 'no leak, no read outside' valgrind -q --error-exitcode=9 --leak-check=full "$folder/watched"
    fi
}

# The tests of the Python package: python_tests PYTHON
python_tests() {
    (cd "$top/python/tests" && PYTHONPATH=$top/python TOZBIREM_LIBRARY=$out/libtozbirem.so "$@")
}

python() {
    local python=${PYTHON:-python3}
    check 'Python' python_tests "$python" -m unittest
    if "$python" -c 'import numpy' 2>/dev/null; then
        check 'Python, without numpy' python_tests "$python" -c 'import sys; sys.modules["numpy"] = None; import unittest; unittest.main(module=None, argv=["tests", "discover"])'
    else
        echo "skipped: no numpy"
    fi
    if "$python" -c 'import scipy' 2>/dev/null; then
        check 'calls beside numpy and scipy' python_tests "$python" "$top/tools/library/calls.py" 1
    else
        echo "skipped: no scipy"
    fi
    check 'pip install ./python' installed "$python"
}

# Installs the package into an empty environment, without a network, and calls it there.
installed() {
    cp -r "$top/python" "$folder/python"
    cp "$out/libtozbirem.so" "$folder/python/tozbirem/"
    "$1" -m venv "$folder/venv" &&
        "$folder/venv/bin/pip" -q install --no-index "$folder/python" &&
        (cd / && env -u TOZBIREM_LIBRARY -u PYTHONPATH "$folder/venv/bin/python" -c '
import tozbirem
assert list(tozbirem.arm_fir_q15([16384], [1000, -1000, -1])) == [500, -500, -1]')
}

if has python3; then
    compiled
    examples
    exports
    memory
    python
fi
counted
