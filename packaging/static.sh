#!/bin/sh
# static.sh PROGRAM CRATE: links the program that `make` built from the crate again, as one that
# needs no shared library. It proves and compiles nothing. It links the object file that rt compiled
# from what was proved, the same two C archives of the kit that rt links, and the static C library
# of this machine (Debian: libc6-dev). CC names the compiler that links. KIT names the kit; without
# it, that of rt is used.
set -eu
[ $# = 2 ] || { sed -n '2,/^set/s/^# //p' "$0"; exit 2; }
top=$(cd "$(dirname "$0")/.." && pwd)
object=$top/crates/$2/out/$2.o
[ -s "$object" ] || { echo "static.sh: there is no $object: run make first" >&2; exit 1; }
if [ -z "${KIT:-}" ]; then
    rt=$(command -v rt) || {
        echo "static.sh: there is no command rt: KIT names the folder of the Rattle kit" >&2
        exit 1
    }
    KIT=$(dirname "$(dirname "$(readlink -f "$rt")")")
fi
# No build number and no symbols: the same files give the same bytes.
"${CC:-cc}" -static-pie -s -Wl,--gc-sections -Wl,--build-id=none -Wl,-z,relro,-z,now -o "$1" \
    "$object" "$KIT/c/libos_c.a" "$KIT/c/liblibc_c.a" -lm
"./$1" --version > /dev/null 2>&1 || "$1" --version > /dev/null
echo "linked $1: $(wc -c < "$1") bytes, no shared library"
