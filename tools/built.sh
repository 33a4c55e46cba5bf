# For the tools that measure the built program, which source it: `top` is the repository, `folder` a folder that is
# removed at the end, and `program` what DSPFX names, or the program that `./dspfx prove` builds.
top=$(cd "$(dirname "$(readlink -f "${BASH_SOURCE[0]}")")/.." && pwd) || exit 70
folder=$(mktemp -d) || exit 70
trap 'rm -rf "$folder"' EXIT

[ -n "${DSPFX:-}" ] || "$top/dspfx" prove || exit 70
program=${DSPFX:-$top/build/dspfx}
