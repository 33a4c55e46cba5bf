#!/usr/bin/env bash
# Installs the proved program, its man page and its completion for bash: tools/install.sh [PREFIX], or removes
# them: tools/install.sh --uninstall [PREFIX]. PREFIX is /usr/local where it is not named. What is installed goes to
# the folder DESTDIR followed by PREFIX, where DESTDIR is set in the environment.
#
# What is installed is build/dspfx, which needs the C library alone; ./dspfx with its hints stays in the repository.
# PREFIX/share/dspfx/installed lists the files with their sums. A file that is there and is not listed is not
# overwritten, and one that has changed since is not removed.
set -eu
umask 022
top=$(cd "$(dirname "$(readlink -f "${BASH_SOURCE[0]}")")/.." && pwd)
files='bin/dspfx share/man/man1/dspfx.1 share/bash-completion/completions/dspfx'
folders='. bin share share/man share/man/man1 share/bash-completion share/bash-completion/completions share/dspfx'
list=share/dspfx/installed

# Says why nothing is done, and ends.
refuse() {
    echo "install: $1" >&2
    exit 1
}

# The sum of a file of the prefix.
sum_of() {
    sha256sum <"$root/$1" | cut -d ' ' -f 1
}

# Whether the list has this line.
listed() {
    [ -f "$root/$list" ] && grep -qxF -- "$1" "$root/$list"
}

# Removes the folders that were made, those that are empty, the lowest first: remove_folders FOLDER..
remove_folders() {
    local folder
    for folder in $(printf '%s\n' "$@" | LC_ALL=C sort -ru); do
        [ "$folder" != . ] || folder=
        rmdir -- "$root${folder:+/$folder}" 2>/dev/null || true
    done
}

# Takes away what an installation that has not ended leaves.
undo() {
    [ -z "$stage" ] || rm -rf -- "$stage"
    [ -n "$is_done" ] || remove_folders $made
}

uninstall() {
    local file left='' made
    [ -f "$root/$list" ] || refuse "nothing of it is installed in $root: there is no $list"
    for file in $files; do
        [ -e "$root/$file" ] || [ -L "$root/$file" ] || continue
        if [ -f "$root/$file" ] && listed "$(sum_of "$file")  $file"; then
            rm -f -- "$root/$file"
        else
            left="$left $file"
        fi
    done
    [ -z "$left" ] || refuse "other files than were installed are left in $root:$left"
    made=$(sed -n 's/^made  //p' "$root/$list")
    rm -f -- "$root/$list"
    remove_folders $made
    echo "install: removed from $root"
}

# Puts all files into a folder in the prefix, and moves them from there when they are whole.
install_all() {
    local folder file made_before=''
    for folder in $folders; do
        [ -d "$root/$folder" ] || made="$made $folder"
        mkdir -p -- "$root/$folder" || refuse "there is no folder $root/$folder, and it cannot be made"
    done
    for file in $files; do
        [ ! -e "$root/$file" ] && [ ! -L "$root/$file" ] && continue
        [ -f "$root/$file" ] && listed "$(sum_of "$file")  $file" ||
            refuse "$root/$file is there and was not installed by this: remove it first"
    done
    stage=$(mktemp -d -- "$root/.dspfx-XXXXXX")
    install -m 755 -- "$program" "$stage/dspfx"
    "$top/tools/man.py" >"$stage/dspfx.1"
    install -m 644 -- "$top/tools/completion.bash" "$stage/completion"
    # (the list has the old files and the new ones until all are in place, so that they can be removed)
    [ ! -f "$root/$list" ] || made_before=$(sed -n 's/^made  //p' "$root/$list")
    for folder in $made_before $made; do echo "made  $folder"; done >"$stage/list"
    set -- dspfx dspfx.1 completion
    for file in $files; do
        echo "$(sha256sum <"$stage/$1" | cut -d ' ' -f 1)  $file" >>"$stage/list"
        shift
    done
    { cat "$stage/list" && { [ ! -f "$root/$list" ] || cat "$root/$list"; }; } >"$stage/both"
    mv -f -- "$stage/both" "$root/$list"
    is_done=1
    set -- dspfx dspfx.1 completion
    for file in $files; do
        mv -f -- "$stage/$1" "$root/$file"
        shift
    done
    mv -f -- "$stage/list" "$root/$list"
}

is_removing=
if [ "${1-}" = --uninstall ]; then
    is_removing=1
    shift
fi
case ${1-} in
-h | --help)
    sed -n '2,/^[^#]/s/^# \{0,1\}//p' "$top/tools/install.sh"
    exit
    ;;
-*) refuse "$1 is no option" ;;
esac
[ $# -le 1 ] || refuse "one PREFIX is taken, and here are $#: $*"
prefix=${1-/usr/local}
[ -n "$prefix" ] || refuse 'PREFIX is empty (a variable that is not set?)'
[ -z "${DESTDIR-}" ] || [ "${prefix#/}" != "$prefix" ] || refuse "with DESTDIR a PREFIX begins with /, and here is $prefix"
root=${DESTDIR-}$prefix
[ "${root#/}" != "$root" ] || root=$PWD/$root
if [ -n "$is_removing" ]; then
    uninstall
    exit
fi

program=${DSPFX_PROGRAM:-$top/build/dspfx}
if [ -z "${DSPFX_PROGRAM-}" ] && ! "$top/tools/sources.py" dspfx; then
    refuse 'no proved program is built of these sources: ./dspfx prove'
fi
[ -f "$program" ] || refuse "DSPFX_PROGRAM is no file: $program"
stage='' made='' is_done=
trap undo EXIT
trap 'exit 130' INT
trap 'exit 143' TERM HUP
install_all
built_for=
[ -n "${DSPFX_PROGRAM-}" ] || built_for=$(sed 's/.*/ for &/' "$top/build/dspfx.cpu" 2>/dev/null || true)
echo "install: dspfx $(cat "$top/VERSION")$built_for is in $root"
