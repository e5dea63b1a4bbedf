"""Converts the nine states of VHDL in a dump to the four of VCD; a filter

u, w and - become x, l becomes 0, and h becomes 1, in upper or lower case. Variables that are
strings are left out, with their values: Amaranth, MyHDL and fst2vcd write enumerations as strings.
Each declaration and each change has to be on a separate line, as GHDL and fst2vcd write them. If
you can run the simulation again, use an option of the simulator instead, such as GHDL's
`--vcd-4states`. The filter reads its input once and does not run vcdkit.

example:
  vcdkit-four-state < tb.vcd | vcdkit check"""
from ..reading.states import four_states
from . import filtering

main = filtering(__name__, "vcdkit-four-state [FILE]", __doc__, four_states)
