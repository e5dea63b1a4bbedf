"""Questions about value change dumps (VCD), answered by vcdkit.

    from vcdkit import Dump, merge

    dump = Dump("sim.vcd.gz")                   # also .xz, .bz2, .zst, .fst, a pipe, or bytes
    dump.value("bench.slow.count", "115ns")     # a Value: == 11, .hex(), f"{..:x}"
    for time, (a, b) in dump.rows(["bench.a", "bench.b"], rise="bench.clock"): ..
    dump.cut("100ns", "2us").pick("bench.slow").save("window.vcd")

The program that VCDKIT names answers, or the vcdkit on the PATH. Dump.arrays() asks the library
libvcdkit.so instead if it is beside this package, or if VCDKIT_LIBRARY names it. Both run the same
code, whose core is proved. This package, which reads what they write, is only tested.
"""
from typing import TYPE_CHECKING, Any

from .errors import (DumpFault, NoTimescale, RunFailed, UnknownName, UsageError, VcdkitError)
from .model.signals import Header, Scope, Signal
from .model.times import Time, Timescale
from .model.values import Cell, Edges, Report, Row, Value

if TYPE_CHECKING:
    from .questions.dump import Dump, merge

__version__ = "0.1.0"
__all__ = ["Cell", "Dump", "DumpFault", "Edges", "Header", "NoTimescale", "Report", "Row",
           "RunFailed", "Scope", "Signal", "Time", "Timescale", "UnknownName", "UsageError",
           "Value", "VcdkitError", "merge"]


def __getattr__(name: str) -> Any:
    """Returns Dump or merge, which the filters among the scripts do without."""
    if name not in ("Dump", "merge"):
        raise AttributeError("module vcdkit has no attribute " + name)
    from .questions import dump
    return getattr(dump, name)
