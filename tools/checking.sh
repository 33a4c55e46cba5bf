# What the scripts of checks beside it share; they source it. It gives them `top`, the top of the
# repository; `program`, which DSPFX names or else ./dspfx; `folder`, which is removed at the end;
# `check`, which counts; and `counted`, which says the counts and ends.
set -u
top=$(cd "$(dirname "$(readlink -f "${BASH_SOURCE[0]}")")/.." && pwd) || exit 70
program=${DSPFX:-$top/dspfx}
folder=$(mktemp -d) || exit 70
trap 'rm -rf "$folder"' EXIT
passed=0 failed=0

# Counts a check by the status of its command: check NAME COMMAND..
check() {
    local name=$1
    shift
    if "$@" >"$folder/log" 2>&1; then
        passed=$((passed + 1))
    else
        failed=$((failed + 1))
        echo "FAILED $name"
        sed 's/^/    /' "$folder/log"
    fi
}

# Whether a command, or a module of python as py:NAME, is there; says what is not: has NAME
has() {
    case $1 in
    py:*) python3 -c "import ${1#py:}" 2>/dev/null ;;
    *) command -v "$1" >/dev/null ;;
    esac || {
        echo "skipped: no ${1#py:}"
        return 1
    }
}

# Ends with 0 where no check has failed.
counted() {
    echo "$passed passed, $failed failed"
    [ "$failed" -eq 0 ]
    exit
}
