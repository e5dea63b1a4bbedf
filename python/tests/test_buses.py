#!/usr/bin/env python3
"""Compares the transactions of vcdkit-table --channel with what a test bench in Verilog prints.

test_buses.py [--verilator] [--seeds N]: an AXI-lite slave answers up to four reads at a time, and
takes the data of a write before or after its address. The bench finds the request of an answer by
its address, which the slave keeps, and prints a line for each transaction; so it does not count
transfers, as vcdkit-table does. Icarus Verilog runs it, or Verilator; and of a FIFO between two
clocks, which has a clock for each channel."""
import argparse
import collections
import os
import shutil
import subprocess
import sys
import tempfile
from typing import Dict, List

import cases  # finds what follows
from asker import run

BENCH = r"""
`timescale 1ns / 1ns
module tb;
  integer seed, edges = 0, most = 0, at;
  reg aclk = 0;
  always #5 aclk = ~aclk;
  function chance(input integer percent);
    begin
      seed = seed * 1103515245 + 12345;
      chance = seed[30:16] % 100 < percent;
    end
  endfunction

  // Each address is there once; the slave makes the data of a read of it.
  reg arvalid = 0, rready = 0, arready = 0, rvalid = 0;
  reg [11:0] araddr = 12'h5a8, queue [0:4];
  wire [31:0] rdata = {rvalid ? queue[0] : 12'hxxx, 20'h3c5a7};
  integer count = 0, ar_time [0:4095], ar_edge [0:4095];
  always @(posedge aclk) begin
    if (arvalid && arready) begin
      ar_time[araddr] = $time;
      ar_edge[araddr] = edges;
      queue[count] = araddr;
      count = count + 1;
      if (count > most) most = count;
      araddr <= araddr * 5 + 3;
    end
    if (rvalid && rready) begin
      $display("read,%0d,%h,%0d,%h,%0d", ar_time[rdata[31:20]], rdata[31:20], $time, rdata,
               edges - ar_edge[rdata[31:20]]);
      for (at = 0; at < 4; at = at + 1) queue[at] = queue[at + 1];
      count = count - 1;
    end
    if (!arvalid || arready) arvalid <= chance(70);
    arready <= chance(60) && count < 4;
    rvalid <= (rvalid && !rready) || (count > 0 && chance(30));
    rready <= chance(50);
  end

  // The master writes an address and its data, which begins with the address, at any times.
  reg awvalid = 0, awready = 0, wvalid = 0, wready = 0, bvalid = 0, bready = 0;
  reg [11:0] awaddr = 12'h123, wtag = 12'h123, btag = 12'h123;
  wire [31:0] wdata = {wtag, 20'h96e1f};
  reg [4095:0] has_aw = 0, has_w = 0;
  integer ahead = 0, aw_time [0:4095], aw_edge [0:4095], w_time [0:4095], w_edge [0:4095];
  always @(posedge aclk) begin
    if (awvalid && awready) begin
      aw_time[awaddr] = $time;
      aw_edge[awaddr] = edges;
      has_aw[awaddr] = 1;
      awaddr <= awaddr * 5 + 3;
      ahead = ahead + 1;
    end
    if (wvalid && wready) begin
      w_time[wdata[31:20]] = $time;
      w_edge[wdata[31:20]] = edges;
      has_w[wdata[31:20]] = 1;
      wtag <= wtag * 5 + 3;
      ahead = ahead - 1;
    end
    if (bvalid && bready) begin
      $display("write,%0d,%h,%0d,%h,%0d,%0d,%0d", aw_time[btag], btag, w_time[btag],
               {btag, 20'h96e1f}, $time, w_edge[btag] - aw_edge[btag], edges - w_edge[btag]);
      btag = btag * 5 + 3;
    end
    if (!awvalid || awready) awvalid <= chance(60) && ahead < 3;
    if (!wvalid || wready) wvalid <= chance(60) && ahead > -3;
    awready <= chance(50);
    wready <= chance(50);
    bvalid <= (bvalid && !bready) || (has_aw[btag] && has_w[btag] && chance(40));
    bready <= chance(70);
  end
  always @(negedge aclk) edges = edges + 1;

  initial begin
    if (!$value$plusargs("seed=%d", seed)) seed = 1;
    $dumpfile("dump.vcd");
    $dumpvars(0, tb);
    #6002;
    for (at = 0; at < count; at = at + 1) $display("read,%0d,%h,,,", ar_time[queue[at]], queue[at]);
    while (has_aw[btag] || has_w[btag]) begin
      if (!has_w[btag]) $display("write,%0d,%h,,,,,", aw_time[btag], btag);
      else if (!has_aw[btag]) $display("write,,,%0d,%h,,,", w_time[btag], {btag, 20'h96e1f});
      else $display("write,%0d,%h,%0d,%h,,%0d,", aw_time[btag], btag, w_time[btag],
                    {btag, 20'h96e1f}, w_edge[btag] - aw_edge[btag]);
      btag = btag * 5 + 3;
    end
    $display("most,%0d", most);
    $finish;
  end
endmodule
"""
# A FIFO between two clocks, with gray pointers. Each word has the time at which it was written.
FIFO = r"""
`timescale 1ns / 1ps
module tb;
  reg wclk = 0, rclk = 0, winc = 0, rinc = 0;
  always #3.7 wclk = ~wclk;
  always #5.3 rclk = ~rclk;
  reg [31:0] mem [0:7], next = 100;
  reg [3:0] wptr = 0, rptr = 0, w1 = 0, w2 = 0, r1 = 0, r2 = 0;
  wire [3:0] wgray = wptr ^ (wptr >> 1), rgray = rptr ^ (rptr >> 1);
  wire full = wgray == {~r2[3:2], r2[1:0]}, empty = rgray == w2;
  wire [31:0] wdata = next, rdata = mem[rptr[2:0]];
  integer seed, edges = 0, count = 0, first = 0, at_time [0:4095], at_edge [0:4095];
  always @(posedge rclk) begin
    edges = edges + 1;
    {w2, w1} <= {w1, wgray};
    if (rinc && !empty) begin
      $display("fifo,%0d,%h,%0d,%h,%0d", at_time[first], rdata, $rtoi($realtime * 1000 + 0.5),
               rdata, edges - at_edge[first]);
      first = first + 1;
      rptr <= rptr + 1;
    end
    seed = seed * 1103515245 + 12345;
    rinc <= seed[30:16] % 100 < 70;
  end
  always @(posedge wclk) begin
    {r2, r1} <= {r1, rgray};
    if (winc && !full) begin
      at_time[count] = $rtoi($realtime * 1000 + 0.5);
      at_edge[count] = edges;
      count = count + 1;
      mem[wptr[2:0]] <= wdata;
      wptr <= wptr + 1;
      next <= next * 5 + 3;
    end
    seed = seed * 1103515245 + 12345;
    winc <= seed[30:16] % 100 < 60;
  end
  initial begin
    if (!$value$plusargs("seed=%d", seed)) seed = 1;
    $dumpfile("dump.vcd");
    $dumpvars(0, tb);
    #6000.1 winc = 0;
    $display("left,%0d", count - first);
    $finish;
  end
endmodule
"""
CROSSING = ["w@tb.wclk: tb.winc && !tb.full: tb.wdata",
            "r@tb.rclk: tb.rinc && !tb.empty: tb.rdata"]
READ = ["ar: @arvalid && @arready: @araddr", "r: @rvalid && @rready: @rdata"]
WRITE = ["aw: @awvalid && @awready: @awaddr", "w: @wvalid && @wready: @wdata",
         "b: @bvalid && @bready"]


def built(folder: str, is_verilator: bool, bench: str = BENCH) -> List[str]:
    """Builds a bench, and returns the command that runs it."""
    with open(os.path.join(folder, "tb.v"), "w", encoding="ascii") as file:
        file.write(bench)
    words, command = ["iverilog", "-g2005", "-o", "tb", "tb.v"], ["vvp", "-n", "tb"]
    if is_verilator:
        words, command = ["verilator", "--binary", "--trace", "-Wno-lint", "-Wno-style",
                          "--top-module", "tb", "tb.v"], ["obj_dir/Vtb"]
    subprocess.run(words, cwd=folder, check=True, stdout=subprocess.DEVNULL)
    return command


def printed(command: List[str], folder: str) -> Dict[str, List[str]]:
    """Runs the bench, and returns the lines of each kind."""
    done = subprocess.run(command, cwd=folder, check=True, stdout=subprocess.PIPE,
                          universal_newlines=True)
    found = collections.defaultdict(list)
    for line in done.stdout.splitlines():
        kind, _, rest = line.partition(",")
        found[kind].append(rest)
    return found


def rows(channels: List[str], folder: str, scope: str, *options: str) -> List[str]:
    """Returns what vcdkit-table writes of some channels; in them, @ stands for a scope."""
    words = ["--channel=" + one.replace("@", scope) for one in channels]
    said = run("table", ["--hex", *options, *words, os.path.join(folder, "dump.vcd")])
    return [said.message] if said.status else said.lines


def main() -> int:
    """Asks, and says what differs."""
    options = argparse.ArgumentParser(description=__doc__.partition("\n")[0])
    options.add_argument("--verilator", action="store_true")
    options.add_argument("--seeds", type=int, default=3)
    asked = options.parse_args()
    if not shutil.which("verilator" if asked.verilator else "iverilog"):
        print("transactions are not compared: there is no simulator")
        return 0
    scope, wrong, count, most, early = "TOP.tb." if asked.verilator else "tb.", 0, 0, 0, 0
    with tempfile.TemporaryDirectory() as folder:
        command, clock = built(folder, asked.verilator), "--rise=%saclk" % scope
        for seed in range(asked.seeds):
            lines = printed([*command, "+seed=%d" % (seed * 7919 + 1)], folder)
            for kind, channels, head in (
                    ("read", READ, "ar (ns),%saraddr,r (ns),%srdata,ar to r"),
                    ("write", WRITE, "aw (ns),%sawaddr,w (ns),%swdata,b (ns),aw to w,w to b")):
                wanted = [head.replace("%s", scope), *lines[kind]]
                wrong += rows(channels, folder, scope, clock) != wanted
                each = collections.Counter(line.split(",")[4] for line in lines["read"])
                count += len(lines[kind])
            del each[""]
            wrong += rows(READ, folder, scope, clock, "--histogram") != ["edges,ar to r", *(
                "%s,%d" % pair for pair in sorted(each.items(), key=lambda pair: int(pair[0])))]
            most = max(most, *map(int, lines["most"]))
            early += sum(line.split(",")[5][:1] == "-" for line in lines["write"])
        fifo = 0
        for seed in range(0 if asked.verilator else asked.seeds):  # Verilator 5.006 has no #3.7
            lines = printed([*built(folder, False, FIFO), "+seed=%d" % (seed * 7919 + 1)], folder)
            got, done = rows(CROSSING, folder, "@"), len(lines["fifo"])
            wrong += got[:done + 1] != ["w (ps),tb.wdata,r (ps),tb.rdata,w to r", *lines["fifo"]]
            wrong += len(got) - done - 1 != int(lines["left"][0])
            fifo += done
    print("%d words through a FIFO between two clocks" % fifo)
    print("%d transactions, with up to %d reads in flight and %d times data before its address; "
          "%d tables differ" % (count, most, early, wrong))
    return int(wrong or most != 4 or not early)


if __name__ == "__main__":
    sys.exit(main())
