#!/usr/bin/env python3
"""wheel.py DIRECTORY PROGRAM COMPARE STROBE [LIBRARY]: writes the Python package as a wheel into
the directory, with the three programs, and with libvcdkit.so if it is there. It needs no build tool
and no network.

After `pip install vcdkit-VERSION-py3-none-linux_x86_64.whl`, `import vcdkit` works, and the
programs and the scripts are on the PATH. The same files are packed as the same bytes: all times are
SOURCE_DATE_EPOCH."""
import base64
import hashlib
import os
import re
import sys
import time
import zipfile

TOP = os.path.dirname(os.path.dirname(os.path.abspath(__file__)))
PACKAGE = os.path.join(TOP, "python", "vcdkit")
TAG = "py3-none-linux_x86_64"
METADATA = """Metadata-Version: 2.1
Name: vcdkit
Version: %s
Summary: Questions about value change dumps (VCD), answered by vcdkit
Requires-Python: >=3.8
Provides-Extra: arrays
Requires-Dist: numpy; extra == "arrays"
Description-Content-Type: text/markdown

%s"""


def read(*path):
    with open(os.path.join(*path), "rb") as file:
        return file.read()


def files_of(version, programs, library):
    """Returns the names of the wheel's files, their bytes and whether each is a program."""
    for folder, _, names in os.walk(PACKAGE):
        for name in names:
            if name.endswith((".py", ".typed", ".html")):
                path = os.path.relpath(os.path.join(folder, name), os.path.dirname(PACKAGE))
                yield path, read(folder, name), False
    if library:
        yield "vcdkit/libvcdkit.so", read(library), False
    scripts = "vcdkit-%s.data/scripts/" % version
    for name, program in zip(("vcdkit", "vcdkit-compare", "vcdkit-strobe"), programs):
        yield scripts + name, read(program), True
    commands = sorted(name[:-3] for name in os.listdir(os.path.join(PACKAGE, "commands"))
                      if name.endswith(".py") and name != "__init__.py")
    about = "vcdkit-%s.dist-info/" % version
    yield about + "METADATA", (METADATA % (version, read(TOP, "extras", "README.md").decode(
        ))).encode(), False
    yield about + "WHEEL", ("Wheel-Version: 1.0\nGenerator: wheel.py\nRoot-Is-Purelib: false\n"
                            "Tag: %s\n" % TAG).encode(), False
    yield about + "entry_points.txt", ("[console_scripts]\n" + "".join(
        "vcdkit-%s = vcdkit.commands.%s:main\n" % (name.replace("_", "-"), name)
        for name in commands)).encode(), False


def main(words):
    if len(words) not in (4, 5):
        print(__doc__, file=sys.stderr)
        return 2
    version = re.search(r'__version__ = "(.*)"', read(PACKAGE, "__init__.py").decode()).group(1)
    record, name = [], "vcdkit-%s-%s.whl" % (version, TAG)
    record_name = "vcdkit-%s.dist-info/RECORD" % version
    date = time.gmtime(max(int(os.environ.get("SOURCE_DATE_EPOCH", "0")), 315532800))[:6]
    with zipfile.ZipFile(os.path.join(words[0], name), "w", zipfile.ZIP_DEFLATED) as wheel:

        def add(path, data, is_program):
            entry = zipfile.ZipInfo(path, date)
            entry.external_attr = (0o100755 if is_program else 0o100644) << 16
            entry.compress_type = zipfile.ZIP_DEFLATED
            wheel.writestr(entry, data)

        for path, data, is_program in sorted(files_of(version, words[1:4], "".join(words[4:]))):
            sum_ = base64.urlsafe_b64encode(hashlib.sha256(data).digest()).rstrip(b"=").decode()
            record.append("%s,sha256=%s,%d\n" % (path, sum_, len(data)))
            add(path, data, is_program)
        add(record_name, ("".join(record) + record_name + ",,\n").encode(), False)
    return 0


if __name__ == "__main__":
    sys.exit(main(sys.argv[1:]))
