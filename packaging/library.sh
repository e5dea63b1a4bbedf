#!/bin/sh
# library.sh ARCHIVE DIRECTORY: makes these files from a static library of rt, for callers in C:
#   libvcdkit.a      the library with the C archives of the kit that it needs
#   libvcdkit.so.0   the same as a shared library; libvcdkit.so is a link to it
#   vcdkit.pc        for pkg-config, with the directories of PREFIX (/usr/local)
# Both libraries export only the functions that extras/c/vcdkit.h declares.
set -eu
[ $# = 2 ] || { sed -n '2,/^set/s/^# //p' "$0"; exit 2; }
if [ -z "${KIT:-}" ]; then
    KIT=$(dirname "$(dirname "$(readlink -f "$(command -v rt)")")")
fi
top=$(dirname "$0")/..
folder=$(mktemp -d)
trap 'rm -rf "$folder"' EXIT
sed -n 's/^uint8_t \(vcdkit_[a-z]*\)(.*/\1/p' "$top/extras/c/vcdkit.h" > "$folder/names"

# One object of all, in which no other name is seen from outside.
"${LD:-ld}" -r -o "$folder/all.o" --whole-archive "$1" --no-whole-archive \
    "$KIT/c/libos_c.a" "$KIT/c/liblibc_c.a"
"${OBJCOPY:-objcopy}" --keep-global-symbols="$folder/names" "$folder/all.o" "$folder/vcdkit.o"
rm -f "$2/libvcdkit.a" "$2/libvcdkit.so"
"${AR:-ar}" rcD "$2/libvcdkit.a" "$folder/vcdkit.o"

{ echo 'VCDKIT_0 { global:'; sed 's/$/;/' "$folder/names"; echo 'local: *; };'; } > "$folder/map"
"${CC:-cc}" -shared -s -o "$2/libvcdkit.so.0" "$folder/vcdkit.o" -lm \
    -Wl,-soname,libvcdkit.so.0 -Wl,--version-script="$folder/map" -Wl,--gc-sections \
    -Wl,-z,defs -Wl,--build-id=none
ln -s libvcdkit.so.0 "$2/libvcdkit.so"

version=$(sed -n 's/.*\.version("\(.*\)").*/\1/p' "$top/crates/vcd_words/src/command.rt")
cat > "$2/vcdkit.pc" <<END
prefix=${PREFIX:-/usr/local}
libdir=\${prefix}/lib
includedir=\${prefix}/include

Name: vcdkit
Description: The commands of vcdkit over value change dumps in memory
Version: $version
Cflags: -I\${includedir}
Libs: -L\${libdir} -lvcdkit
Libs.private: -lm
END
echo "made $2/libvcdkit.a, $2/libvcdkit.so.0 and $2/vcdkit.pc"
