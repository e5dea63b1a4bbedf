"""Forms of files: how they begin, how their names end, and what makes a dump of them."""
import re
from typing import NamedTuple, Optional, Tuple


class Format(NamedTuple):
    """A form of file. `unpacker` has the words of a program that makes a dump of its standard
    input; if there is none, no such file is read. `cause` and `remedy` are what a user is told who
    gives such a file in place of a dump."""

    fronts: Tuple[bytes, ...]
    ending: str = ""
    unpacker: Tuple[str, ...] = ()
    cause: str = ""
    remedy: str = ""


PACKED = (Format((b"\x1f\x8b",), "gz", ("gzip", "-dc")),
          Format((b"\xfd7zXZ\0",), "xz", ("xz", "-dc")),
          Format((b"BZh",), "bz2", ("bzip2", "-dc")),
          Format((b"\x28\xb5\x2f\xfd",), "zst", ("zstd", "-dcq")))
# With its header at the front, or with a block that has the whole file packed.
FST = Format((b"\0\0\0\0\0\0\0\x01\x49", b"\xfe\0\0\0"), "fst", ("fst2vcd", "/dev/stdin"),
             "a binary file: FST", "fst2vcd FILE | vcdkit check    (fst2vcd: GTKWave)")
FORMATS = (*PACKED, FST,
           Format((b"\xef\xbb\xbf",), cause="the file begins with a byte order mark",
                  remedy=r"sed '1s/^\xEF\xBB\xBF//' < FILE | vcdkit check"),
           Format((b"\xff\xfe", b"\xfe\xff"), cause="the file is UTF-16",
                  remedy="iconv -f UTF-16 -t UTF-8 < FILE | vcdkit check"),
           Format((b"\x13\x80",), cause="a binary file: LXT2",
                  remedy="lxt2vcd FILE | vcdkit check    (lxt2vcd: GTKWave)"),
           Format((b"VZ",), cause="a binary file: VZT",
                  remedy="vzt2vcd FILE | vcdkit check    (vzt2vcd: GTKWave)"),
           Format((b"GHDLwave",), cause="a binary file: GHW, which vcdkit cannot read",
                  remedy="run ghdl again, with --vcd=OUT.vcd --vcd-4states"),
           Format((b"PK\x03\x04",), cause="a zip archive", remedy="unzip -p FILE | vcdkit check"))
FRONT = 16  # bytes that tell the form of a file
ENDINGS = ("vcd", *(one.ending for one in FORMATS if one.ending))
DUMP = re.compile(r"\.(vcd|%s)(\.(%s))?\Z" % (FST.ending, "|".join(one.ending for one in PACKED)),
                  re.IGNORECASE)


def format_of(front: bytes) -> Optional[Format]:
    """Returns the form of a file that begins like this; `None` if it may be a plain dump."""
    return next((one for one in FORMATS if front.startswith(one.fronts)), None)
