#!/usr/bin/env bash
# dist.sh PROGRAM COMPARE STROBE DIRECTORY [LIBRARY]: packs the three programs with documents, man
# pages, completions, samples, scripts and the Python package, and writes to the directory:
#   vcdkit-VERSION-x86_64-linux.tar.gz   to unpack and run, or `make install` in it
#   vcdkit_VERSION_amd64.deb             a Debian package of the programs, if there is dpkg-deb
#   python3-vcdkit_VERSION_*.deb         one of the Python package and of vcdkit-diff, ..
#   vcdkit-VERSION-py3-none-linux_x86_64.whl    all of it for pip, the programs too
#   vcdkit-VERSION-relink.tar.gz         the object files, for linking the programs again with
#                                        another C library (NOTICE.md)
# LIBRARY is libvcdkit.so. It goes into the Python packages, and, with what `make library` left
# beside it, into the tarball. The same files give the same bytes: names are sorted, owner and modes
# are fixed, and all times are SOURCE_DATE_EPOCH, or the time of the last commit. MAINTAINER is the
# name in the Debian packages; without it, the author of that commit is named.
set -eu
[[ $# == 4 || $# == 5 ]] || { sed -n '2,/^set/s/^# //p' "$0"; exit 2; }
top=$(cd "$(dirname "$0")/.." && pwd)
program=$(realpath "$1") compare=$(realpath "$2") strobe=$(realpath "$3")
library=${5:+$(realpath -s "$5")}
for one in "$program" "$compare" "$strobe"; do
    said=$("$one" --version)
    [[ $said != *unproved* ]] ||
        { echo "dist.sh: ${one##*/} is not proved ($said): run make" >&2; exit 1; }
done
mkdir -p "$4"
out=$(realpath "$4")
cd "$top"
umask 022
export LC_ALL=C TZ=UTC PYTHONDONTWRITEBYTECODE=1
export SOURCE_DATE_EPOCH=${SOURCE_DATE_EPOCH:-$(git log -1 --format=%ct 2> /dev/null || echo 0)}
maintainer=${MAINTAINER:-$(git log -1 --format='%an <%ae>' 2> /dev/null || echo vcdkit)}
version=$("$program" --version | cut -d ' ' -f 2)
folder=$(mktemp -d)
trap 'rm -rf "$folder"' EXIT

# packed NAME: the directory NAME as a tarball
packed() {
    find "$folder/$1" -exec touch -h -d "@$SOURCE_DATE_EPOCH" {} +
    tar -C "$folder" --sort=name --format=gnu --owner=0 --group=0 --numeric-owner \
        --mode=u=rwX,go=rX -cf - "$1" | gzip -9n > "$out/$1.tar.gz"
}

kit=${KIT:-}
[[ -n $kit ]] || kit=$(dirname "$(dirname "$(readlink -f "$(command -v rt)")")")
# licences DIRECTORY: the texts that go with the program, as NOTICE.md says
licences() {
    mkdir -p "$1"
    local part
    for part in clap indexmap; do
        cp "$kit/rattle/$part/LICENSE-MIT" "$1/$part.MIT"
        cp "$kit/rattle/$part/LICENSE-APACHE" "$1/$part.Apache-2.0"
    done
    cp "$kit/rattle/strsim/LICENSE" "$1/strsim.MIT"
    cp "$kit/rattle/itoa/LICENSE" "$1/itoa.MIT"
    cp /usr/share/common-licenses/LGPL-2.1 "$1/glibc.LGPL-2.1"
}

# The tarball: the files of the repository that need no kit, and the programs.
name=vcdkit-$version-x86_64-linux
mkdir "$folder/$name"
cp -r Makefile man completions samples extras packaging python "$folder/$name"
mkdir "$folder/$name"/{hostile,tools}
cp tools/{check,contracts,links}.py "$folder/$name/tools"
cp -r hostile/reference "$folder/$name/hostile"
packaging/pages.sh "$folder/$name"
find "$folder/$name" -name __pycache__ -exec rm -rf {} +
install -m 755 "$program" "$folder/$name/vcdkit"
install -m 755 "$compare" "$folder/$name/vcdkit-compare"
install -m 755 "$strobe" "$folder/$name/vcdkit-strobe"
if [[ -n $library ]]; then
    for file in "${library%.so}".* "$(dirname "$library")/vcdkit.pc"; do
        [[ ! -e $file ]] || cp -P "$file" "$folder/$name"
    done
fi
licences "$folder/$name/licences"
packed "$name"

# The wheel: all for pip.
"$folder/$name/packaging/wheel.py" "$out" "$folder/$name"/vcdkit{,-compare,-strobe} $library

# deb PACKAGE ARCHITECTURE < CONTROL: the directory PACKAGE as a Debian package, with its changelog
# and its copyright file
deb() {
    local tree=$folder/$1 documents=$folder/$1/usr/share/doc/$1 size
    mkdir -p "$tree/DEBIAN" "$documents"
    cp packaging/copyright "$documents/copyright"
    printf 'vcdkit (%s) unstable; urgency=medium\n\n  * %s\n\n -- %s  %s\n' "$version" \
        'CHANGELOG.md of the package vcdkit says what it has.' "$maintainer" \
        "$(date -R -d "@$SOURCE_DATE_EPOCH")" | gzip -9n > "$documents/changelog.gz"
    size=$(find "$tree/usr" -type f -size +0 -printf '%s\n' |
        awk '{ k += int(($1 + 1023) / 1024) } END { print k }')
    { printf 'Package: %s\nVersion: %s\nArchitecture: %s\nMaintainer: %s\nInstalled-Size: %s\n' \
        "$1" "$version" "$2" "$maintainer" "$size"; cat; } > "$tree/DEBIAN/control"
    (cd "$tree" && find usr -type f | sort | xargs -d '\n' md5sum > DEBIAN/md5sums)
    find "$tree" -type d -exec chmod 755 {} +
    find "$tree" -exec touch -h -d "@$SOURCE_DATE_EPOCH" {} +
    dpkg-deb --root-owner-group -Zxz -b "$tree" "$out/$1_${version}_$2.deb" > /dev/null
}

# The packages: what `make install` installs, in two parts.
if command -v dpkg-deb > /dev/null; then
    rm -f "$out"/*vcdkit_*.deb
    tree=$folder/vcdkit
    make -s -C "$folder/$name" install DESTDIR="$tree" PREFIX=/usr \
        PYTHON_FOLDER=/usr/lib/python3/dist-packages > /dev/null
    gzip -9n "$tree/usr/share/man/man1/"*.1
    licences "$tree/usr/share/doc/vcdkit/licences"
    python=$folder/python3-vcdkit
    mkdir -p "$python/usr/bin" "$python/usr/lib" "$python/usr/share/man/man1"
    mv "$tree/usr/lib/python3" "$python/usr/lib"
    find "$python" -name __pycache__ -exec rm -rf {} +
    rm -rf "$tree/usr/lib" "$tree/usr/include"  # the library for C is in the tarball
    for script in "$tree"/usr/bin/vcdkit-*; do
        [[ $script != */vcdkit-@(compare|strobe) ]] || continue
        sed '1s,.*,#!/usr/bin/python3,' "$script" > "$python/usr/bin/${script##*/}"
        chmod 755 "$python/usr/bin/${script##*/}"
        rm "$script"
        mv "$tree/usr/share/man/man1/${script##*/}.1.gz" "$python/usr/share/man/man1"
    done
    # They are static so that they run on any machine; NOTICE.md says what that asks.
    mkdir -p "$tree/usr/share/lintian/overrides"
    for one in vcdkit vcdkit-compare vcdkit-strobe; do
        printf "vcdkit: %s [usr/bin/$one]\n" statically-linked-binary \
            shared-library-lacks-prerequisites
    done > "$tree/usr/share/lintian/overrides/vcdkit"
    deb vcdkit amd64 <<'END'
Section: electronics
Priority: optional
Recommends: python3-vcdkit
Suggests: gtkwave, pv
Description: value change dumps (VCD): check, list, pick, cut, sample, edges, merge
 Seven commands that check the dumps of simulators, cut parts out of them and
 answer questions about their values, a program that compares two dumps, or two
 parts of one, and one that writes the values at the edges of clocks. The memory
 that they take does not grow with the length of a dump. README.md says what is
 proved, and what is not.
END
    # Python is not a dependency, so that dpkg -i installs both packages on a machine without it.
    # The scripts then say that it is missing.
    mkdir -p "$python/usr/share/lintian/overrides"
    printf 'python3-vcdkit: %s\n' python3-script-but-no-python3-dep \
        > "$python/usr/share/lintian/overrides/python3-vcdkit"
    architecture=all depends=
    if [[ -n $library ]]; then
        architecture=amd64 depends=', libc6 (>= 2.34)'
        install -m 644 "$library" "$python/usr/lib/python3/dist-packages/vcdkit/libvcdkit.so"
    fi
    deb python3-vcdkit $architecture <<END
Section: python
Priority: optional
Depends: vcdkit (= $version)$depends
Recommends: python3 (>= 3.8), python3-numpy
Suggests: gtkwave, zstd
Description: value change dumps (VCD) in Python, and commands over them
 The Python package vcdkit, which gets its answers from the program vcdkit or
 its library, and the commands of the package: vcdkit-close-sections,
 vcdkit-diff, vcdkit-explain, vcdkit-find, vcdkit-four-state, vcdkit-info,
 vcdkit-join-bits, vcdkit-stats, vcdkit-table, vcdkit-values, vcdkit-wave,
 vcdkit-when and vcdkit-x. They need Python 3.8. They are tested, not proved.
END
fi

# What is needed to link the program again.
relink=vcdkit-$version-relink
mkdir "$folder/$relink"
cp crates/vcdkit{,_compare,_strobe}_main/out/vcdkit*_main.o \
    "$kit/c/libos_c.a" "$kit/c/liblibc_c.a" NOTICE.md "$folder/$relink"
strip --strip-debug "$folder/$relink"/vcdkit_*.o
licences "$folder/$relink/licences"
cat > "$folder/$relink/relink.sh" <<'END'
#!/bin/sh
# Links the programs anew, with the static C library of this machine: sh relink.sh; without
# -static-pie with the shared one.
cd "$(dirname "$0")" || exit
for name in vcdkit vcdkit-compare vcdkit-strobe; do
    ${CC:-cc} ${LINK:--static-pie} -s -Wl,--gc-sections -o $name \
        "$(echo $name | tr - _)_main.o" libos_c.a liblibc_c.a -lm || exit
done
END
chmod 755 "$folder/$relink/relink.sh"
packed "$relink"
(cd "$out" && ls -l "$name.tar.gz" ./*vcdkit_*.deb ./*.whl "$relink.tar.gz" 2> /dev/null |
    awk '{ sub(/^\.\//, "", $NF); print "packed " $NF ": " $5 " bytes" }')
