#!/usr/bin/env bash
# Runs the program's words with no proof, in about a minute: tools/try.sh run SCRIPT IN OUT. It has the program
# compiled with checks each time, so a run is slow, and ends after 10 minutes. ./dspfx calls it where it could not
# keep such a program (tools/unproved.py).
top=$(cd "$(dirname "$(readlink -f "${BASH_SOURCE[0]}")")/.." && pwd) || exit 70
command -v rt >/dev/null || { echo "dspfx: rt, the command of the Rattle toolchain, is not on the PATH" >&2; exit 70; }
echo "dspfx: compiled without its proofs: nothing is proved of this run" >&2

# The program runs in another folder, so the files are named from the root.
words=()
for place in $(seq $#); do
    word=${!place}
    command=${1-}
    [ "$command" != resume ] || command=${2-}
    case $command:$place in
    run:[234] | bank:[234] | check:[234] | gen:[45] | print:2 | convert:[45] | stop:[456] | go:[345]) [[ -z $word || $word = /* ]] || word=$PWD/$word ;;
    esac
    words+=("$word")
done
log=$(mktemp) || exit 70
trap 'rm -f "$log"' EXIT
(cd "$top/crates/dspfx" && exec rt try --seconds 600 -- "${words[@]}") 2>"$log"
status=$?
grep -q '^run=ended ' "$log" || {
    cat "$log" >&2
    echo 'dspfx: the run without proofs did not end: it has 10 minutes; the program that `./dspfx prove` builds has no such limit' >&2
    exit 70
}
exit $status
