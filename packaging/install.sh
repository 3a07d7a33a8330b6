#!/bin/sh
# Installs what stands beside this script below the folder PREFIX, which is /usr/local where none is named:
#
#     [DESTDIR=ROOT] [LIBDIR=FOLDER] [ZSHDIR=FOLDER] ./install.sh [PREFIX]
#
# With DESTDIR all files are put below ROOT, and are to be moved to PREFIX later. LIBDIR is the folder of the libraries, PREFIX/lib where none is
# named, and ZSHDIR that of completions for zsh.
set -eu
prefix=${1:-/usr/local}
libdir=${LIBDIR:-$prefix/lib}
share=$prefix/share
root=${DESTDIR-}
cd "$(dirname "$(readlink -f "$0")")"
read -r version <VERSION

# Puts a file with a mode at a place.
put() {
    install -D -m "$1" "$2" "$root$3"
}

# Puts a text file, in which names in capitals between two @ are replaced, with a mode at a place.
fill() {
    put "$1" "$2" "$3"
    sed -e "s|@VERSION@|$version|g" -e "s|@PREFIX@|$prefix|g" -e "s|@LIBDIR@|$libdir|g" "$2" >"$root$3"
}

fill 755 front "$prefix/bin/timeforms"
put 755 timeforms "$libdir/timeforms/timeforms"
put 644 timeforms.1 "$share/man/man1/timeforms.1"
put 644 timeforms.bash "$share/bash-completion/completions/timeforms"
put 644 timeforms.zsh "${ZSHDIR:-$share/zsh/site-functions}/_timeforms"
put 644 timeforms.fish "$share/fish/vendor_completions.d/timeforms.fish"
put 644 timeforms.h "$prefix/include/timeforms.h"
put 644 libtimeforms.a "$libdir/libtimeforms.a"
put 644 libtimeforms.so.1 "$libdir/libtimeforms.so.1"
ln -sf libtimeforms.so.1 "$root$libdir/libtimeforms.so"
fill 644 timeforms.pc "$libdir/pkgconfig/timeforms.pc"
