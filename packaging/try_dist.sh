#!/usr/bin/env bash
# try_dist.sh DIRECTORY: tests what dist.sh left in the directory, without the kit on the PATH. All
# checks have to pass in the unpacked tarball. The programs have to run in a directory with no other
# files. The Debian packages need the right contents, and the links of their pages have to lead
# somewhere. The wheel can be installed, and relink.sh links. In the repository, packing again has
# to give the same bytes.
set -u
[[ $# == 1 ]] || { sed -n '2,/^set/s/^# //p' "$0"; exit 2; }
top=$(cd "$(dirname "$0")/.." && pwd)
out=$(realpath "$1")
failed=0 tried=0
folder=$(mktemp -d)
trap 'rm -rf "$folder"' EXIT

# tries WHAT COMMAND ..
tries() {
    tried=$((tried + 1))
    "${@:2}" > "$folder/said" 2>&1 && { echo "ok      $1"; return; }
    failed=$((failed + 1))
    echo "FAILED  $1"
    sed 's/^/        /' "$folder/said" | tail -n 40
}
# A command with no environment, and a path that has no rt.
without_kit() { env -i PATH=/usr/bin:/bin HOME="$folder" LC_ALL=C "$@"; }

without_kit bash -c '! command -v rt' > /dev/null ||
    { echo "try_dist.sh: there is an rt in /usr/bin or /bin" >&2; exit 1; }
tarball=$(ls "$out"/vcdkit-*-x86_64-linux.tar.gz) || exit 1
package=$(ls "$out"/vcdkit_*_amd64.deb 2> /dev/null)
for_python=$(ls "$out"/python3-vcdkit_*.deb 2> /dev/null)
wheel=$(ls "$out"/vcdkit-*.whl)
relink=$(ls "$out"/vcdkit-*-relink.tar.gz 2> /dev/null)

mkdir "$folder/tar"
tries 'the tarball is unpacked' tar -C "$folder/tar" -xzf "$tarball"
unpacked=$(echo "$folder/tar"/*)
cd "$unpacked" || exit 1
for program in vcdkit vcdkit-compare vcdkit-strobe; do
    tries "$program needs no shared library" bash -c \
        '! readelf -d "$1" | grep NEEDED && ! readelf -l "$1" | grep INTERP' - $program
done
for target in docs-check extras-check completions-check; do
    tries "make $target" without_kit make -s "$target"
done
tries 'a script of the tarball uses the program above it' without_kit bash -c \
    'cd / && "$1/extras/vcdkit-find" "$1/samples/counter.vcd" | grep -q count0' - "$unpacked"
tries 'make says what to do' bash -c '! make static > "$1" 2>&1 && grep -q "make install" "$1"' - \
    "$folder/static"
tries 'links of the pages' without_kit tools/links.py .
tries 'make install' without_kit make -s install DESTDIR="$folder/local"
tries 'links of the installed pages' \
    without_kit tools/links.py "$folder/local/usr/local/share/doc/vcdkit"
tries 'make uninstall' without_kit make -s uninstall DESTDIR="$folder/local"
tries 'uninstall leaves no file' bash -c '! find "$1" ! -type d | grep .' - "$folder/local"

# A root with the programs, a dump, and nothing else.
mkdir "$folder/root"
cp vcdkit vcdkit-compare vcdkit-strobe samples/nested.vcd "$folder/root"
into_root=(chroot)
[[ $(id -u) == 0 ]] || into_root=(unshare -r chroot)
tries 'the program alone in a root' bash -c '"$@" | grep -qx "last 1220"' - \
    "${into_root[@]}" "$folder/root" /vcdkit check -i nested.vcd
tries 'vcdkit-compare in a root' bash -c '"$@" | grep -qx "compared [1-9][0-9]*"' - \
    "${into_root[@]}" "$folder/root" /vcdkit-compare -i nested.vcd 'bench.lane[0]=bench.lane[1]'
tries 'vcdkit-strobe in a root' bash -c '"$@" | grep -qx "#2"' - \
    "${into_root[@]}" "$folder/root" /vcdkit-strobe --rise bench.clock -i nested.vcd

# The files that `make install` put into the current directory, by their names in the packages, but
# for what the packages add or leave to the tarball.
installed() {
    find . ! -type d | sed 's/\.1$/&.gz/' |
        grep -vE '/include/|/lib/(libvcdkit|pkgconfig)|/__pycache__/'
}
added='/licences/|/copyright$|/changelog\.gz$|/lintian/'

if [[ -n $package ]]; then
    tries 'the packages are unpacked' bash -c 'for package in "${@:2}"; do
        dpkg-deb -x "$package" "$1/deb" || exit 1; done' - "$folder" "$package" "$for_python"
    for program in vcdkit vcdkit-compare vcdkit-strobe; do
        tries "$program of the package" cmp $program "$folder/deb/usr/bin/$program"
    done
    make -s install DESTDIR="$folder/usr" PREFIX=/usr PYTHON_FOLDER=/usr/lib/python3/dist-packages
    tries 'their files are those of make install' diff \
        <(cd "$folder/usr" && installed | sort) \
        <(cd "$folder/deb" && find . ! -type d | grep -vE "$added" | sort)
    for one in "$package" "$for_python"; do
        tries "the sums of ${one##*/}" bash -c 'dpkg-deb -e "$1" "$2/control" && cd "$2/deb" &&
            md5sum --quiet -c ../control/md5sums' - "$one" "$folder"
        ! command -v lintian > /dev/null ||
            tries "lintian on ${one##*/}" \
                bash -c '! lintian "$1" | grep -E "^E: |manual-page"' - "$one"
    done
    tries 'links of its pages' without_kit tools/links.py "$folder/deb/usr/share/doc/vcdkit"
    for page in "$folder"/deb/usr/share/man/man1/*; do
        tries "${page##*/}" bash -c 'gzip -dc "$1" | groff -man -ww -z 2>&1 | { ! grep .; }' - \
            "$page"
    done
    mkdir -p "$folder/bare/var/lib/dpkg"/{info,updates}
    printf '%s\n' 'Package: libc6' 'Status: install ok installed' 'Version: 2.36' \
        'Architecture: amd64' 'Maintainer: nobody' 'Description: stands for that of the machine' \
        > "$folder/bare/var/lib/dpkg/status"
    tries 'dpkg -i where there is no Python' env PATH="$PATH:/usr/sbin:/sbin" \
        dpkg --root="$folder/bare" --force-not-root -i "$package" "$for_python"
    tries 'a script of the package' bash -c 'export PATH=$1/usr/bin:/usr/bin:/bin
        export PYTHONPATH=$1/usr/lib/python3/dist-packages
        vcdkit-find samples/counter.vcd | grep -q count0 &&
        vcdkit-wave --html samples/counter.vcd clk | tail -n 1 | grep -q html' - "$folder/deb"
fi
tries 'the wheel has what its RECORD says' python3 - "$wheel" <<'END'
import base64, hashlib, sys, zipfile
wheel = zipfile.ZipFile(sys.argv[1])
names = wheel.namelist()
record, = [name for name in names if name.endswith(".dist-info/RECORD")]
rows = [row.split(",") for row in wheel.read(record).decode().splitlines()]
assert sorted(row[0] for row in rows) == sorted(names), set(names) ^ {row[0] for row in rows}
for name, digest, size in rows[:-1]:
    data = wheel.read(name)
    found = base64.urlsafe_b64encode(hashlib.sha256(data).digest()).rstrip(b"=").decode()
    assert (digest, size) == ("sha256=" + found, str(len(data))), name
END
tries 'the wheel is installed, and answers' bash -c 'python3 -m venv "$2/venv" &&
    "$2/venv/bin/pip" install --no-index --disable-pip-version-check -q "$1" &&
    export PATH="$2/venv/bin:/usr/bin:/bin" &&
    vcdkit-info samples/nested.vcd | grep -q "last 122ns" &&
    vcdkit merge samples/nested.vcd samples/nested.vcd | vcdkit-compare in1=in2 &&
    vcdkit-diff --rise bench.clock samples/nested.vcd samples/nested.vcd &&
    vcdkit-values --four-state --at 20ns samples/ghdl.vcd tb.reset | grep -qx "tb.reset 0" &&
    vcdkit-wave --html samples/nested.vcd bench | tail -n 1 | grep -q html &&
    vcdkit-explain samples/counter.vcd samples/nested.vcd | grep -qx "2 dumps: 2 valid" &&
    vcdkit-close-sections samples/nested.vcd | cmp - samples/nested.vcd &&
    python3 -m vcdkit find samples/counter.vcd count0 | grep -q count0 &&
    python3 -c "import vcdkit; print(vcdkit.Dump(\"samples/nested.vcd\").check())"' - \
    "$wheel" "$folder"

if [[ -n $relink ]] && command -v cc > /dev/null; then
    mkdir "$folder/relink"
    tries 'relink.sh' bash -c 'tar -C "$2/relink" -xzf "$1" && sh "$2"/relink/*/relink.sh &&
        "$2"/relink/*/vcdkit check -i samples/nested.vcd &&
        "$2"/relink/*/vcdkit-compare -i samples/nested.vcd "bench.lane[0]=bench.lane[1]" &&
        "$2"/relink/*/vcdkit-strobe --rise bench.clock -i samples/nested.vcd' - \
        "$relink" "$folder"
fi

if [[ -e $top/vcdkit-static ]]; then
    # The time that the files have: there may be a commit since then.
    SOURCE_DATE_EPOCH=$(stat -c %Y vcdkit)
    export SOURCE_DATE_EPOCH
    tries 'packing again, in another folder and at another umask' bash -c 'umask 077 &&
        "$1/packaging/dist.sh" "$1"/vcdkit{,-compare,-strobe}-static "$2/again" $3' - "$top" "$folder" \
        "$(ls "$unpacked/libvcdkit.so" 2> /dev/null)"
    for file in "$out"/vcdkit*.tar.gz "$out"/*vcdkit*.deb "$wheel"; do
        tries "the same bytes: ${file##*/}" cmp "$file" "$folder/again/${file##*/}"
    done
fi
echo "$((tried - failed)) of $tried as they should be"
((failed == 0))
