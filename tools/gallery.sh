#!/usr/bin/env bash
# Runs the uses of examples/ and compares what they write with what is expected there, byte by byte, by cmp and
# by a check; and makes the gallery anew by examples/make.py, where python is installed, and compares that with what
# stands in the repository. It is no part of the gate. DSPFX names another program.
. "$(dirname "$(readlink -f "${BASH_SOURCE[0]}")")/checking.sh"

# use NAME INPUT ENDING [COMMAND]
use() {
    local use=$top/examples/$1
    check "$1 runs" "$program" "${4-run}" "$use/script.txt" "$use/$2" "$folder/out.$3"
    check "$1 gives what is expected" cmp "$folder/out.$3" "$use/expected.$3"
    check "$1 has what a check expects" "$program" check "$use/script.txt" "$use/$2" "$use/expected.$3"
    rm -f "$folder/out.$3"
}

use lowpass in.wav wav
use convert in.wav wav
use magnitude in.raw raw
use mono in.wav wav
use designed in.raw raw
use equiripple in.wav wav
use elliptic in.wav wav
use halfband in.wav wav
use microphones in.wav wav
use microphones in.wav wav bank

if command -v python3 >/dev/null; then
    check "the gallery is made" python3 "$top/examples/make.py" "$folder/made"
    for made in "$folder"/made/*/*; do
        check "${made#"$folder"/made/} is made as it stands" cmp "$made" "$top/examples/${made#"$folder"/made/}"
    done
fi

counted
