"""Joins variables that are declared bit by bit into vectors; a filter

ModelSim and Questa write `$var wire 1 # q [7] $end`, `$var wire 1 $ q [6] $end` and so on. This
filter writes `$var wire 8 # q [7:0] $end` in place of the first. The bits of a name stay as they
are if an index is missing or occurs twice, if their types differ, if they are real numbers or
events, or if another variable has this name. A vector is written after the changes of its bits,
once for each time and once for each section. Each declaration and each change has to be on a
separate line. The filter reads its input once and does not run vcdkit.

example:
  vcdkit-join-bits < sim.vcd | vcdkit sample --at 15ns tb.q"""
from ..reading.bits import joined
from . import filtering

main = filtering(__name__, "vcdkit-join-bits [FILE]", __doc__, joined)
