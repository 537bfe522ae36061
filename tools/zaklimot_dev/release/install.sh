#!/bin/sh
# Lays the program, its manual and the library for C below a prefix.
set -eu
umask 022

usage() {
    cat <<'END'
Lays what a release has in bin/, include/, lib/ and share/ below a prefix, and
prints each file. On standard error it says how vga takes the font that was laid.

Usage: ./install.sh [--prefix FOLDER] [--destdir FOLDER]

  --prefix FOLDER   where it is used, from the root on; else /usr/local
  --destdir FOLDER  stands before the prefix while files are laid; else nothing
  --help            prints this

Example:
  ./install.sh --prefix "$HOME/.local"

The status is 0 where all is laid, and else another.
END
}

fail() {
    printf 'install.sh: %s\n' "$1" >&2
    exit 2
}

# Lays a file or a link of the release, in the place of what has its name.
lay() {
    target=$destdir$prefix/$1
    folder=${target%/*}
    mkdir -p -- "$folder" || fail "there can be no folder $folder"
    [ "$(cd -- "$folder" && pwd -P)" != "$here/${1%/*}" ] || fail "$folder is the release's own"
    [ ! -d "$target" ] || fail "$target is a folder"
    rm -f -- "$target" || fail "$target can't be written"
    cp -P -- "$1" "$target" || fail "$target can't be written"
    printf '%s\n' "$target"
}

font=share/zaklimot/zaklimot.fnt
prefix=/usr/local
destdir=
while [ $# -gt 0 ]; do
    option=$1
    shift
    case $option in
    --help | -h) usage && exit 0 ;;
    --prefix=* | --destdir=*) value=${option#*=} ;;
    --prefix | --destdir)
        [ $# -ge 1 ] || fail "$option wants a folder"
        value=$1
        shift
        ;;
    *) fail "there is no option $option: --help lists them" ;;
    esac
    case $option in
    --prefix*) prefix=$value ;;
    *) destdir=$value ;;
    esac
done
case $prefix in
/*) ;;
*) fail "a prefix begins with a slash: $prefix" ;;
esac
case $destdir in
"" | /*) ;;
*) destdir=$PWD/$destdir ;;
esac

CDPATH='' cd -- "$(dirname -- "$0")"
here=$(pwd -P)
for folder in bin include lib share; do
    [ -d "$folder" ] || fail "there is no $folder/ beside this command"
done
find bin include lib share ! -type d | LC_ALL=C sort | while IFS= read -r file; do
    lay "$file"
done
if [ -f "$font" ]; then
    printf 'install.sh: vga takes the font by --fonts %s\n' "$prefix/$font" >&2
fi
