#!/usr/bin/env bash
# Installs the C interface, the Python module and the manual pages, or takes them away again.
#
#   tools/build_library mqarbset && ./install.sh         into /usr/local
#   PREFIX=/opt/mqarbset ./install.sh                    into another folder
#   PREFIX=/usr DESTDIR=stage ./install.sh               for /usr, staged below the folder stage
#   ./install.sh --uninstall                             takes away what is there (with the same PREFIX and DESTDIR)
#   ./install.sh --shared FILE                           only makes the shared library, as FILE
#
# PREFIX/include/mqarbset.h, PREFIX/lib/libmqarbset.a, .so and .so.ABI, PREFIX/lib/pkgconfig/mqarbset.pc,
# PREFIX/lib/mqarbset/mqarbset.py, PREFIX/share/man/man1/bench.1 and man3/mqarbset.3.
# FILE and DESTDIR are looked for from the folder where this is called.
set -euo pipefail
from=$PWD
cd "$(dirname "$(readlink -f "${BASH_SOURCE[0]}")")"
prefix=${PREFIX:-/usr/local}
stage=${DESTDIR:-}
archive=target/staticlib/libmqarbset.a

fail() { printf 'install.sh: %s\n' "$*" >&2; exit 1; }
from_caller() { case $1 in /*) printf '%s' "$1" ;; *) printf '%s/%s' "$from" "$1" ;; esac }
constant() { sed -n "s/^#define $1 \([0-9]*\).*/\1/p" include/mqarbset.h; }
version=$(constant MQ_VERSION_MAJOR).$(constant MQ_VERSION_MINOR).$(constant MQ_VERSION_PATCH)
abi=$(constant MQ_ABI)

# The archive's objects are position independent; -z text makes the linker refuse any that are not.
shared() {
    [ -e "$archive" ] || fail "the library is not built: run 'tools/build_library mqarbset' first (it writes $archive)"
    command -v cc >/dev/null || fail "no command cc, which makes the shared library: install a C compiler (Debian: apt-get install gcc)"
    cc -shared -o "$1" -Wl,--whole-archive "$archive" -Wl,--no-whole-archive -Wl,-z,text "-Wl,-soname,libmqarbset.so.$abi"
}

usage="usage: PREFIX=/usr/local DESTDIR= ./install.sh [--uninstall], or ./install.sh --shared FILE"
case "${1:-}:$#" in
--shared:2)
    shared "$(from_caller "$2")"
    exit 0
    ;;
--uninstall:1 | :0) ;;
*) fail "$usage" ;;
esac
case $prefix in /*) ;; *) fail "PREFIX must begin with /: it is '$prefix'" ;; esac
case $prefix$stage in *$'\n'*) fail "PREFIX and DESTDIR must be of one line" ;; esac
[ -z "$stage" ] || stage=$(from_caller "$stage")

# Where a program looks for shared libraries by itself, ldconfig has to hear of a new one.
searched() {
    local line
    while IFS= read -r line; do
        case $line in "$prefix/lib:"*) return 0 ;; esac
    done < <(ldconfig -vNX 2>/dev/null)
    return 1
}
told_ldconfig() { [ -z "$stage" ] && [ "$(id -u)" = 0 ] && command -v ldconfig >/dev/null && searched && ldconfig; }

if [ "${1:-}" = --uninstall ]; then
    for file in include/mqarbset.h lib/libmqarbset.a lib/libmqarbset.so "lib/libmqarbset.so.$abi" lib/pkgconfig/mqarbset.pc \
        lib/mqarbset/mqarbset.py share/man/man1/bench.1 share/man/man3/mqarbset.3; do
        if [ -e "$stage$prefix/$file" ] || [ -L "$stage$prefix/$file" ]; then
            rm "$stage$prefix/$file" && printf 'removed %s\n' "$stage$prefix/$file"
        fi
    done
    [ ! -d "$stage$prefix/lib/mqarbset" ] || rmdir --ignore-fail-on-non-empty "$stage$prefix/lib/mqarbset"
    told_ldconfig || true
    exit 0
fi

made=$(mktemp -d)
trap 'rm -rf "$made"' EXIT
shared "$made/library"

# The prefix goes in as it is, whatever characters it has.
filled=$(<mqarbset.pc.in)
filled=${filled//@PREFIX@/"$prefix"}
printf '%s\n' "${filled//@VERSION@/"$version"}" >"$made/mqarbset.pc"
quoted=${prefix//\\/\\\\}
quoted=${quoted//\'/\\\'}
while IFS= read -r line; do
    case $line in "_INSTALLED = None"*) line="_INSTALLED = '$quoted/lib/libmqarbset.so.$abi'" ;; esac
    printf '%s\n' "$line"
done <python/mqarbset.py >"$made/mqarbset.py"

put() { install -D -m "$1" "$2" "$stage$prefix/$3" && printf 'installed %s\n' "$stage$prefix/$3"; }
put 644 include/mqarbset.h include/mqarbset.h
put 644 "$archive" lib/libmqarbset.a
put 755 "$made/library" "lib/libmqarbset.so.$abi"
ln -sf "libmqarbset.so.$abi" "$stage$prefix/lib/libmqarbset.so"
printf 'installed %s\n' "$stage$prefix/lib/libmqarbset.so"
put 644 "$made/mqarbset.pc" lib/pkgconfig/mqarbset.pc
put 644 "$made/mqarbset.py" lib/mqarbset/mqarbset.py
put 644 man/bench.1 share/man/man1/bench.1
put 644 man/mqarbset.3 share/man/man3/mqarbset.3

if told_ldconfig; then
    echo "A program that is linked with -lmqarbset finds the library."
elif [ -z "$stage" ]; then
    echo "A program that is linked with -lmqarbset does not find the library yet. Run 'ldconfig' as root where $prefix/lib is"
    echo "among the folders of /etc/ld.so.conf; or start the program with LD_LIBRARY_PATH='$prefix/lib'; or link it with -Wl,-rpath,'$prefix/lib'."
fi
echo "Python finds the module with PYTHONPATH='$prefix/lib/mqarbset'."
