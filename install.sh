#!/bin/sh
# install.sh           puts the program of release/, its manual page and its completions, and the library with its headers and its file
#                      for pkg-config, below PREFIX (/usr/local).
# install.sh --remove  takes them away again, and those of their folders that are then empty, but for bin, lib, include and share/man.
#
# DESTDIR, where it is given, stands in front of PREFIX.

set -eu
umask 022

fail() {
    echo "install: $1" >&2
    exit 1
}

here=$(dirname -- "$(readlink -f -- "$0")")
name=pl_csv-x86_64-linux
library=libpl_csv-x86_64-linux
prefix=${PREFIX-/usr/local}
case $prefix in
/*) ;;
*) fail "PREFIX is no path from the root: $prefix" ;;
esac
root=${DESTDIR-}${prefix%/}

# Calls $1 with each file's mode, its place here and its place below PREFIX.
each_file() {
    "$1" 755 "release/$name" bin/pl_csv
    "$1" 644 manual/pl_csv.1 share/man/man1/pl_csv.1
    "$1" 644 manual/completions/pl_csv.bash share/bash-completion/completions/pl_csv
    "$1" 644 manual/completions/_pl_csv share/zsh/site-functions/_pl_csv
    "$1" 644 manual/completions/pl_csv.fish share/fish/vendor_completions.d/pl_csv.fish
    "$1" 644 "release/$library.a" lib/libpl_csv.a
    "$1" 755 "release/$library.so" lib/libpl_csv.so
    "$1" 644 c/pl_csv.h include/pl_csv.h
    "$1" 644 c/pl_csv_arrow.h include/pl_csv_arrow.h
}

# The file for pkg-config, which says where the library lies.
put_pkg_config() {
    mkdir -p -- "$root/lib/pkgconfig"
    cat >"$root/lib/pkgconfig/pl_csv.pc" <<PC
prefix=${prefix%/}
libdir=\${prefix}/lib
includedir=\${prefix}/include

Name: pl_csv
Description: CSV into typed columns and back, proved
Version: $(cat "$here/release/version")
Cflags: -I\${includedir}
Libs: -L\${libdir} -lpl_csv
PC
    chmod 644 "$root/lib/pkgconfig/pl_csv.pc"
    echo "$root/lib/pkgconfig/pl_csv.pc"
}

put() {
    install -D -m "$1" -- "$here/$2" "$root/$3"
    echo "$root/$3"
}

take_away() {
    rm -f -- "$root/$3"
}

remove_empty_folders() {
    for folder in man/man1 bash-completion/completions bash-completion zsh/site-functions zsh fish/vendor_completions.d fish; do
        rmdir -- "$root/share/$folder" 2>/dev/null || true
    done
}

case $#:${1-} in
0:)
    [ "$(uname -sm)" = "Linux x86_64" ] || fail "release/$name is the program of another kind of machine"
    (cd "$here" && sha256sum --check --strict --status "release/$name.sha256") ||
        fail "release/$name is not the program of its checksum: nothing is installed"
    (cd "$here" && sha256sum --check --strict --status "release/$library.sha256") ||
        fail "release/$library is not the library of its checksum: nothing is installed"
    each_file put
    put_pkg_config
    ;;
1:--remove)
    each_file take_away
    rm -f -- "$root/lib/pkgconfig/pl_csv.pc"
    rmdir -- "$root/lib/pkgconfig" 2>/dev/null || true
    remove_empty_folders
    ;;
*)
    fail "no word but --remove is known"
    ;;
esac
