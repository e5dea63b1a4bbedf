"""Adds the missing $end of sections of a dump; a filter

If a timestamp or the end of the dump comes before the $end of a section ($dumpvars, $dumpall,
$dumpoff, $dumpon), the filter writes an $end there. It leaves out an $end that ends nothing. A dump
without such a fault stays as it is. The filter reads its input once and does not run vcdkit.

example:
  vcdkit-close-sections < sim.vcd | vcdkit check"""
from ..reading.sections import closed
from . import filtering

main = filtering(__name__, "vcdkit-close-sections [FILE]", __doc__, closed)
