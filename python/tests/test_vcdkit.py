#!/usr/bin/env python3
"""Tests of the package vcdkit, where the second reader asks nothing. VCDKIT_LIBRARY names the
library, which arrays() asks; without it the program alone is tried."""
import copy
import functools
import io
import json
import os
import pickle
import shutil
import stat
import subprocess
import threading
import unittest
import unittest.mock
from concurrent.futures import ThreadPoolExecutor
from fractions import Fraction

from cases import NESTED, Case, text_of

LIBRARY = os.environ.setdefault("VCDKIT_LIBRARY", "")

try:
    import numpy
except ImportError:
    numpy = None
try:
    import pandas
except ImportError:
    pandas = None
import vcdkit
import vcdkit.reading.library
from vcdkit import (Dump, DumpFault, NoTimescale, RunFailed, Timescale, UnknownName,
                    UsageError, Value, VcdkitError, merge)

BROKEN = b"$var wire 1 ! a $end\n$enddefinitions $end\n#0\n1!\n#x\n"


class Questions(Case):
    def test_signals(self):
        signals = Dump(NESTED).signals
        self.assertEqual((signals[0], signals[1:3], signals[-1]), (
            ("bench.lane0", "wire", 2, "!"), list(signals)[1:3], list(signals)[23]))
        self.assertIn(signals[3], signals)
        every = Dump(NESTED).edges()
        self.assertEqual(list(every), signals.columns()[0])
        self.assertEqual(json.loads(json.dumps(every))["bench.slow.count"], [12, 5, 4])

    def test_sample(self):
        dump = Dump(NESTED)
        found = dump.sample(["115ns", 0, "118.999ns", 1150], ["bench.slow.count", "bench.level"])
        self.assertEqual(found["115ns"], {"bench.slow.count": "1011", "bench.level": 3.0})
        self.assertEqual(found[1150], found["118.999ns"])
        self.assertEqual((list(dump.sample("5ns")), dump.sample([])), (["5ns"], {}))
        self.assertEqual(dump.value("bench.slow.count", "118.999ns"), 11)

    def test_a_name_without_its_range(self):
        dump = Dump(b"$scope module t $end $var reg 2 # p[0:1] $end $var reg 2 $ r[1:0] $end "
                    b"$var reg 2 % r[3:2] $end $upscope $end $enddefinitions $end\n"
                    b"#0\nb10 #\n#1\nb11 #\n")
        self.assertEqual((dump["t.p"].path, dump.value("t.p", 0)), ("t.p[0:1]", 2))
        self.assertEqual(dump.edges("t.p"), {"t.p[0:1]": (1, 1, 0)})
        self.assertEqual([*dump.changes("t.p")], [(0, "10"), (1, "11")])
        self.assertEqual(dump.table(["t.p"]), {"time": [0, 1], "t.p[0:1]": [2, 3]})
        self.assertRaises(UnknownName, lambda: dump["t.r"])

    def test_tree(self):
        tree = Dump(NESTED).tree
        self.assertEqual([(one.path, one.type, len(one.signals)) for one in tree.walk()], [
            ("", "", 0), ("bench", "module", 9), ("bench.lane[0]", "begin", 1),
            ("bench.lane[0].fast", "module", 4), ("bench.lane[1]", "begin", 1),
            ("bench.lane[1].fast", "module", 4), ("bench.slow", "module", 4),
            ("bench.step", "begin", 1)])
        tree = Dump(b"$scope module a.b $end $scope task c $end $var wire 1 ! e $end $upscope $end "
                    b"$upscope $end $scope task d $end $upscope $end $scope module a.b $end $var "
                    b"wire 1 ! f [0] $end $enddefinitions $end").tree
        self.assertEqual([(one.name, one.path) for one in tree.walk()],
                         [("", ""), ("a.b", "a.b"), ("c", "a.b.c")])
        self.assertEqual(tree.scopes[0].signals, [("a.b.f", "wire", 1, "!")])

    @unittest.skipUnless(numpy, "there is no numpy")
    def test_arrays(self):
        times, values = Dump(NESTED).arrays("bench.slow.count")
        self.assertEqual((times.dtype, values.dtype, values.mask[0]), ("uint64", "uint64", True))
        self.assertEqual((times.tolist()[:3], values.tolist()[:3]), ([0, 50, 150], [None, 0, 1]))
        times, values = Dump(NESTED).arrays("bench.level")
        self.assertEqual((times.tolist()[:3], values.tolist()[:3]), ([0, 50, 150], [0, 0.25, 0.5]))
        empty = Dump(b"$var wire 1 ! a $end $var real 64 % r $end $enddefinitions $end")
        self.assertEqual([len(column) for name in "ar" for column in empty.arrays(name)], [0] * 4)

    @unittest.skipUnless(numpy, "there is no numpy")
    def test_arrays_of_real_values(self):
        """They are floats of all that is a number, also of digits; NaN stands for the rest."""
        written = ["r1.5", "b101", "b1x", "rfoo", "r-0", "rinf", "bz", "b1" + "0" * 40, "r1e3"]
        numbers = [1.5, 5.0, "nan", "nan", -0.0, float("inf"), "nan", 2.0 ** 40, 1000.0]
        for kind, size in ("real", 64), ("realtime", 64), ("shortreal", 48):
            dump = Dump("".join(["$var %s %d ! r $end $enddefinitions $end " % (kind, size), *(
                "#%d %s ! " % one for one in enumerate(written))]).encode())
            times, values = dump.arrays("r")
            self.assertEqual((times.dtype, values.dtype, times.tolist()), (
                "uint64", "float64", list(range(9))), kind)
            self.assertFalse(numpy.ma.isMaskedArray(values))
            self.assertEqual(list(map(str, values.tolist())), list(map(str, numbers)), kind)

    @unittest.skipIf(numpy, "there is numpy")
    def test_no_arrays(self):
        with self.assertRaises(RunFailed) as raised:
            Dump(NESTED).arrays("bench.level")
        self.assertIn("numpy", str(raised.exception))

    @unittest.skipUnless(pandas, "there is no pandas")
    def test_pandas(self):
        dump = Dump(NESTED)
        frame = pandas.DataFrame(dump.table(["bench.slow.count", "bench.level"]))
        frame = frame.set_index("time")
        self.assertEqual(frame.loc[1150].tolist(), [11, 3])
        self.assertEqual(frame.isna().sum().tolist(), [2, 1])  # also after $dumpoff
        for numbers in [2**64 - 1, 1], [2**64 - 1, None], [None, 2**63, 1]:  # as PYTHON.md says
            table = {"time": list(range(len(numbers))), "w": numbers}
            frame = pandas.DataFrame(table, dtype=object).astype({"w": "UInt64"})
            self.assertEqual([None if one is pandas.NA else one for one in frame.w], numbers)
        series = pandas.Series(*reversed(dump.arrays("bench.slow.count")))
        self.assertEqual((series[50], series[1150], series.isna().sum()), (0, 11, 2))

    def test_a_path_of_two(self):
        dump = Dump(b'$var wire 1 ! a $end $var wire 2 " a $end $var wire 1 % b $end '
                    b'$var reg 1 % b $end $var reg 1 + time $end $enddefinitions $end '
                    b'#0 0! b1 " #1 1! 1+ #2 b10 " 1%')
        self.assertEqual(dump.table(["a", "b", "time"]), {
            "time": [0, 1, 2], "a !": [0, 1, 1], 'a "': [1, 1, 2], "b": [None, None, 1],
            "time +": [None, 1, 1]})
        self.assertEqual(dump.table("b", at=[1, 2, 1, "1"]),
                         {"time": [1, 2, 1, 1], "b": [None, 1, None, None]})
        self.assertRaises(UsageError, dump.value, "a", 0)

    def test_rows_where_a_value_changed(self):
        dump = Dump(b'$var wire 2 ! q $end $var real 64 " r $end $enddefinitions $end #0 b0 ! '
                    b'#1 b00 ! rNaN " #2 rnan " b1 ! b0 ! #3 $dumpall b0 ! rnan " $end #4 r1.0 " '
                    b'#5 bx ! r1 " #6 bxx ! r1e0 " #7 r-1 " #8 b1 ! b1 !')
        rows = [(0, ["00", None]), (1, ["00", float("nan")]), (4, ["00", 1.0]), (5, ["xx", 1.0]),
                (7, ["xx", -1.0]), (8, ["01", -1.0])]
        self.assertEqual(repr([(*row,) for row in dump.rows(["q", "r"])]), repr(rows))
        self.assertEqual(list(dump.cut(6, 7).rows(["q", "r"])), [(6, ["xx", 1.0]), rows[4]])
        self.assertEqual(repr([(*row,) for row in dump.cut(2, 4).rows(["q", "r"])]),
                         repr([(2, rows[1][1]), rows[2]]))

    def test_names_that_are_not_utf_8(self):
        for scope in b"t", b"t\xff":
            dump = Dump(b'$scope module %s $end $var wire 1 ! a\xff $end $var wire 1 " b $end $var '
                        b'wire 1 %% c $end $upscope $end $enddefinitions $end #0 1! 0" #5 $dumpall '
                        b'0! 1" $end #6 b1 " bx !' % scope)
            name, other = (scope.decode(errors="surrogateescape") + end
                           for end in (".a\udcff", ".b"))
            self.assertIn(name, dump.signals)
            self.assertEqual(list(dump.changes(name)), [(0, 1), (5, 0), (6, "x")])
            self.assertEqual(list(dump.rows([other, name])), [(0, [0, 1]), (5, [1, 0]),
                                                              (6, [1, "x"])])
            self.assertEqual(list(dump.rows(name, rise=other)), [(5, [1])])
            self.assertEqual(list(dump.rows(name, at=[5, 0])), [(5, [0]), (0, [1])])
            self.assertEqual(dump.value(name, 5), 0)
            self.assertEqual(dump.sample([5], [name]), {5: {name: "0"}})
            self.assertEqual(dump.edges(name), {name: (2, 0, 1)})
            self.assertEqual(dump.tree.scopes[0].signals[0].path, name)
            if numpy:
                self.assertEqual([column.tolist() for column in dump.arrays(name)],
                                 [[0, 5, 6], [1, 0, None]])
            with self.assertRaises(UsageError) as raised:
                dump.pick(name)
            self.assertIn("UTF-8", str(raised.exception))

    def test_many_parts(self):
        dump = Dump(NESTED)
        both = merge(dump, dump.cut("100ns", "110ns").pick("bench.slow"))
        self.assertEqual((both.check().variables, both.signals[-1].path),
                         (28, "in2.bench.slow.count"))
        self.assertEqual(merge(*[Dump(dump.read())] * 64).check().variables, 64 * 24)
        with self.assertRaises(UsageError):
            merge(*[dump] * 65).check()

    def test_windows_between_two_ticks(self):
        dump = Dump(b"$timescale 10ns $end $var wire 1 ! a $end $enddefinitions $end\n")
        for words, wanted in ((("45ns", "5ns"), (4, 5)), (("45ns", "4ns"), (4, 4)),
                              (("45ns", 1, "25ns"), (4, 7)), (("45ns", "99ns"), (0, 14))):
            self.assertEqual(dump.window(*words), wanted, words)
        self.assertRaises(NoTimescale, Dump(BROKEN).window, 5, "5ns")

    def test_open_files(self):
        wanted = Dump(NESTED).check()
        with open(NESTED, "rb") as file:
            dump = Dump(file)
        self.assertEqual((dump.check(), dump.name), (wanted, NESTED))
        with open(NESTED, encoding="latin-1") as file:
            self.assertEqual(Dump(file).check(), wanted)
        with self.assertRaises(DumpFault) as raised:
            Dump(io.BytesIO(BROKEN)).check()
        self.assertEqual(raised.exception.file, "(file)")

    def test_save_keeps_what_is_there(self):
        part = Dump(NESTED).cut("100ns")
        target, link, pipe, full = map(self.file, ("target", "link", "pipe", "full"))
        self.assertEqual(part.save(target).check(), part.check())
        os.chmod(target, 0o640)
        os.symlink("target", link)
        self.assertEqual(part.save(link).check(), part.check())
        self.assertTrue(os.path.islink(link))
        self.assertEqual(os.stat(target).st_mode & 0o777, 0o640)
        self.assertRaises(DumpFault, Dump(BROKEN).cut().save, link)
        self.assertRaises(DumpFault, Dump(BROKEN).cut().save, self.file("new"))
        self.assertEqual(Dump(target).check(), part.check())
        os.mkfifo(pipe)
        reader = subprocess.Popen(["cat", pipe], stdout=subprocess.PIPE)
        for end in reader.wait, reader.stdout.close, reader.kill:
            self.addCleanup(end)
        part.save(pipe)
        self.assertTrue(stat.S_ISFIFO(os.stat(pipe).st_mode))
        self.assertEqual(reader.stdout.read(), part.read())
        self.assertEqual(sorted(os.listdir(self.folder)), ["link", "pipe", "target"])
        try:  # never risk the /dev/full of the machine
            os.mknod(full, stat.S_IFCHR | 0o600, os.makedev(1, 7))
        except PermissionError:
            return
        self.assertRaises(RunFailed, part.save, full)
        self.assertTrue(stat.S_ISCHR(os.stat(full).st_mode))

    def test_two_threads_save_to_one_path(self):
        """The file is one of the two dumps, and none fails."""
        head = b"$var wire 1 ! a $end\n$enddefinitions $end\n"
        long = Dump(head + b"".join(b"#%d\n%d!\n" % (at, at % 2) for at in range(100_000)))
        texts = [dump.read() for dump in (long, Dump(head + b"#7\n1!\n"))]
        dumps, path = [Dump(text) for text in texts], self.file("m.vcd")
        with ThreadPoolExecutor(2) as pool:
            for _ in range(20):
                list(pool.map(lambda dump: dump.save(path), dumps))
                self.assertIn(text_of(path), texts)
        self.assertEqual(os.listdir(self.folder), ["m.vcd"])

    def test_packed_dumps_and_pipes(self):
        wanted, path, pipe = Dump(NESTED).check(), self.file("any.name"), self.file("pipe")
        for packer in ["gzip", "-c"], ["xz", "-c"], ["bzip2", "-c"], ["zstd", "-cq"]:
            if not shutil.which(packer[0]):
                continue
            packed = subprocess.run([*packer, NESTED], stdout=subprocess.PIPE, check=True).stdout
            self.file("any.name", packed)
            self.assertEqual(Dump(path).check(), wanted)
            self.assertEqual(merge(Dump(path), Dump(NESTED)).check().variables, 48)
            self.file("any.name", packed[:len(packed) // 2])
            self.assertRaises((DumpFault, RunFailed), Dump(path).check)
        os.mkfifo(pipe)
        writer = subprocess.Popen("gzip -c '%s' > '%s'" % (NESTED, pipe), shell=True)
        dump = Dump(pipe)
        self.assertEqual((dump.check(), dump.check()), (wanted, wanted))
        writer.wait()

    def test_faults_have_a_file_and_a_line(self):
        broken = Dump(BROKEN, "bad.vcd")
        for call in (broken.check, broken.cut().pick("a").check, lambda: list(broken.changes("a")),
                     lambda: broken.edges(), lambda: merge(Dump(NESTED), broken.cut()).check(),
                     lambda: merge(broken, Dump(NESTED)).read(), lambda: list(broken.rows("a"))):
            with self.assertRaises(DumpFault) as raised:
                call()
            fault = raised.exception
            self.assertEqual((fault.file, fault.line, fault.fault, fault.status),
                             ("bad.vcd", 5, "bad time", 1))
            self.assertEqual(str(fault), "bad.vcd:5: bad time")
        self.assertEqual([one.path for one in broken.signals], ["a"])

    def test_parts_of_parts_before_a_fault(self):
        dump = Dump(BROKEN.replace(b"#x", b"#5\n0!\n#x"))
        for part, wanted in ((dump.cut(3).pick("a"), [(3, ["1"]), (5, ["0"])]),
                             (dump.cut(4, 9).cut(3, 4), [(4, ["1"])]),
                             (merge(dump.cut(3), dump), [(0, [None, "1"]), (3, ["1", "1"])])):
            found = []
            with self.subTest(part=part), self.assertRaises(DumpFault):
                for row in part.rows([one.path for one in part.signals]):
                    found.append((*row,))
            self.assertEqual(found, wanted)

    def test_errors_say_what_to_do(self):
        dump, rows = Dump(NESTED), functools.partial(Dump(NESTED).rows, "bench.slow.count")
        no_scale = Dump(b"$var reg 2 ! q[1:0] $end $enddefinitions $end\n", "n.vcd")
        for call, kind, said in (
                (lambda: dump.pick("bench.slow.count[3:0]").check(), UnknownName,
                 "there is bench.slow.count"),
                (lambda: dump.sample(0, "count"), UnknownName, "there is bench.lane[0].count"),
                (lambda: dump.edges("BENCH.level"), UnknownName, "there is bench.level"),
                (lambda: no_scale.pick("q").check(), UnknownName, "there is q[1:0]"),
                (lambda: dump.changes("bench.*"), UnknownName, "regular expression"),
                (lambda: dump.changes("nothing"), UnknownName, "`vcdkit list`"),
                (lambda: dump.changes("bench.slow"), UsageError, "selects 4 signals"),
                (lambda: no_scale.sample("5ns"), NoTimescale, "give times in ticks"),
                (lambda: no_scale.cut("5ns").check(), NoTimescale, "n.vcd: no timescale"),
                (lambda: dump.pick([]), UsageError, "needs a name"),
                (lambda: dump.edges(b"bench.level"), UsageError, "names are texts"),
                (lambda: dump.value(5, 0), UsageError, "5 is no name"),
                (lambda: dump.rows(["bench", None]), UsageError, "None is no name"),
                (lambda: dump["bench.slow"], UsageError, "selects 4 signals"),
                (lambda: dump.value("bench.slow", 0), UsageError, "selects 4 signals"),
                (lambda: dump["none"], UnknownName, "`vcdkit list`"),
                (lambda: dump.rows([]), UsageError, "needs a name"),
                (lambda: rows(at=[0], fall="bench.clock"), UsageError, "rows are at times or"),
                (lambda: rows(rise="bench.slow"), UsageError, "selects 4 signals"),
                (lambda: rows(fall="bench.slow.overflow"), UsageError, "an event"),
                (lambda: rows(rise="bench.level"), UsageError, "a real number"),
                (lambda: rows(fall="bench.slow.count"), UsageError, "4 bits"),
                (lambda: dump.when(5), UsageError, "5 is not a text"),
                (lambda: dump.find("["), UsageError, "bad expression: ["),
                (lambda: dump.find(5), UsageError, "bad expression: 5"),
                (lambda: merge(dump, NESTED), UsageError, "write Dump(..)"),
                (lambda: dump.cut("x"), UsageError, "bad time: x"),
                (lambda: dump.cut(1.5), UsageError, '"1.5ns"'),
                (lambda: dump.cut(-1), UsageError, "from 0"),
                (lambda: dump.cut(5, 3).check(), UsageError, "--from is above --to"),
                (lambda: Dump(NESTED, token_limit=3).check(), UsageError, "token limit"),
                (lambda: Dump("/no/such/file").check(), RunFailed, "/no/such/file: No such file"),
                (lambda: Dump("/tmp").check(), RunFailed, "/tmp"),
                (lambda: dump.save("/no/such/folder/x"), RunFailed, "/no/such/folder/x")):
            with self.assertRaises(kind) as raised:
                call()
            self.assertIn(said, str(raised.exception))
        self.assertRaises(TypeError, iter, dump)

    def test_errors_are_pickled_and_copied(self):
        for call in (Dump(BROKEN, "bad.vcd").check, lambda: Dump(NESTED).edges("count"),
                     lambda: Dump(b"$enddefinitions $end\n", "n.vcd").ticks("5ns"),
                     lambda: Dump(NESTED).cut("x"), Dump("/no/such/file").check):
            with self.assertRaises(VcdkitError) as raised:
                call()
            error = raised.exception
            for again in pickle.loads(pickle.dumps(error)), copy.copy(error), copy.deepcopy(error):
                self.assertIs(type(again), type(error))
                for name in "file", "line", "fault", "name", "status":
                    self.assertEqual(getattr(again, name, None), getattr(error, name, None))
                self.assertEqual(str(again), str(error))

    def test_threads(self):
        wanted, found = Dump(NESTED).check(), []
        many = [threading.Thread(target=lambda: found.append(Dump(NESTED).check()))
                for _ in range(8)]
        for one in many:
            one.start()
        for one in many:
            one.join()
        self.assertEqual(found, [wanted] * 8)


class Programs(Case):
    def test_a_pipe_is_read_as_it_comes(self):
        front, back = os.pipe()
        os.write(back, b'$timescale 1ns $end $var wire 1 ! c $end $var wire 2 " q $end '
                       b'$enddefinitions $end\n#0 0! b1 "\n#10 1! b10 "\n')
        dump = Dump("/dev/fd/%d" % front)
        self.assertEqual((len(dump.signals), dump.time(5), dump.tree.signals[0].path),
                         (2, "5ns", "c"))
        rows, changes = dump.rows("q"), dump.changes("c")
        self.assertEqual((next(rows), next(changes)), ((0, [1]), (0, 0)))
        os.write(back, b'#20 0! b11 "\n')
        self.assertEqual((next(rows), next(changes), next(changes)), ((10, [2]), (10, 1), (20, 0)))
        os.write(back, b'#30 1!\n')
        self.assertEqual(next(changes), (30, 1))
        changes.close()
        edges = dump.rows("q", rise="c")
        os.write(back, b'#40 0!\n#50 1!\n')  # the next edge ends what is there at one
        self.assertEqual([next(edges), next(edges)], [(10, [1]), (30, [3])])
        edges.close()
        os.close(back)
        self.assertEqual((list(rows), dump.check().last), ([(20, [3])], 50))
        os.close(front)

    def test_no_program(self):
        named = os.environ.pop("VCDKIT", None)
        path, os.environ["PATH"] = os.environ["PATH"], "/nowhere"
        try:
            with self.assertRaises(RunFailed) as raised:
                Dump(NESTED).check()
            self.assertIn("VCDKIT=FILE", str(raised.exception))
        finally:
            os.environ["PATH"] = path
            if named:
                os.environ["VCDKIT"] = named

    def test_another_program(self):
        named, os.environ["VCDKIT"] = os.environ.get("VCDKIT"), "true"
        try:
            for call in (Dump(NESTED).check, Dump(NESTED).edges, lambda: Dump(NESTED).signals,
                         lambda: merge(Dump(NESTED)).read()):
                with self.assertRaises(RunFailed) as raised:
                    call()
                self.assertIn("true, which VCDKIT names, is not vcdkit", str(raised.exception))
        finally:
            del os.environ["VCDKIT"]
            if named:
                os.environ["VCDKIT"] = named


@unittest.skipUnless(LIBRARY, "VCDKIT_LIBRARY names no library")
class Library(unittest.TestCase):
    def test_every_room(self):
        for dump in Dump(NESTED), Dump(Dump(NESTED).read()), Dump(NESTED).cut():
            changes = functools.partial(vcdkit.reading.library.changes, LIBRARY, dump.text, b"1")
            found = changes()
            self.assertEqual([*zip(found[::3], found[1::3])][1:3], [(50, 0), (150, 1)])
            for room in 1, 2, 5, len(found) // 3, len(found) // 3 + 1:
                self.assertEqual(changes(room), found)
        self.assertIsNone(vcdkit.reading.library.changes(LIBRARY, Dump(BROKEN).text, b"!"))

    @unittest.skipUnless(numpy, "there is no numpy")
    def test_arrays(self):
        by_library = Dump(NESTED).arrays("bench.slow.count")
        with unittest.mock.patch.dict(os.environ, VCDKIT_LIBRARY=""):
            by_program = Dump(NESTED).arrays("bench.slow.count")
        self.assertEqual(*([one.tolist() for one in both] for both in (by_library, by_program)))


class Times(unittest.TestCase):
    def test_words(self):
        for time, wanted in ((1150, "1150"), ("1150", "1150"), ("115ns", "115ns"),
                             ("1.5ns", "1500ps"), ("0.25us", "250ns"), ("1.50ns", "1500ps"),
                             ("2.000001s", "2000001us"), ("3.0", "3"), (" 7 ps", "7ps")):
            self.assertEqual(str(vcdkit.model.times.amount_of(time)), wanted)
        for time in "1.5", "1.5fs", "ns", "-5ns", "1e3ns", "", 2**64:
            with self.assertRaises(UsageError):
                vcdkit.model.times.amount_of(time)

    def test_scales(self):
        scale = Timescale(100, "ps")
        self.assertEqual([scale.ticks(time, is_up=True) for time in (7, "115ns", "118.999ns")],
                         [7, 1150, 1190])
        self.assertEqual([scale.ticks(time) for time in (7, "115ns", "118.999ns", "1us", "99ps")],
                         [7, 1150, 1189, 10000, 0])
        self.assertEqual([scale.text(ticks) for ticks in (0, 1, 1150, 1189, 10**7, 10**10)],
                         ["0ps", "100ps", "115ns", "118900ps", "1ms", "1s"])
        self.assertEqual([scale.text(1189, unit) for unit in ("ns", "us", "ps", "s")],
                         ["118.9ns", "0.1189us", "118900ps", "0.0000001189s"])
        self.assertEqual(scale.seconds(1150), 1.15e-07)
        self.assertRaises(UsageError, scale.text, 5, "foo")
        dump = Dump(NESTED)
        self.assertRaises(UsageError, dump.time, 5, "foo")
        self.assertEqual([dump.time(5, unit) for unit in ("tick", "ns")], ["5", "0.5ns"])


class Values(unittest.TestCase):
    def test_numbers(self):
        value = Value("0101")
        for other in 5, 5.0, Fraction(5), "0101", Value("101"), Value("00000101"):
            self.assertTrue(value == other and other == value)
            self.assertFalse(value != other or other != value)
            self.assertTrue(value <= other and value >= other)
        for other in 4, 5.5, True, "101", "5", None, Value("1101"), [5]:
            self.assertFalse(value == other or other == value)
            self.assertTrue(value != other and other != value)
        self.assertTrue(4 < value < 6 and value > Value("11") and Value("11") < value)
        self.assertTrue(value in (1, 5) and value in range(6) and value not in range(5))
        self.assertEqual((int(value), float(value), "abcdef"[value]), (5, 5, "f"))
        self.assertEqual([Value(one).signed() for one in ("0101", "1", "1111", "1000")],
                         [5, -1, -1, -8])
        self.assertRaises(TypeError, lambda: value < None)

    def test_values_that_are_not_known(self):
        for value in Value("0x01"), Value("z"), Value("xxxx"):
            for number in 0, 1, 5, -1:
                self.assertFalse(value == number or value < number or value >= number)
                self.assertTrue(value != number)
            self.assertRaises(ValueError, int, value)
            self.assertFalse(value.is_known)
        self.assertEqual(Value("x"), Value("xxx"))
        self.assertNotEqual(Value("x"), Value("0x"))

    def test_truth_and_digits(self):
        for digits, is_true in (("0", False), ("1", True), ("0x", False), ("1x", True)):
            self.assertIs(bool(Value(digits)), is_true)
        self.assertEqual((Value("1010")[0], Value("1010")[1:3], list(Value("10"))),
                         (1, 1, ["1", "0"]))
        self.assertEqual({Value("01"): 1}, {"01": 1})
        for again in pickle.loads(pickle.dumps(Value("01"))), copy.deepcopy(Value("01")):
            self.assertEqual((type(again), again), (Value, 1))
        self.assertEqual(json.dumps([Value("0x")]), '["0x"]')

    def test_arithmetic(self):
        value = Value("1011")
        for call in (lambda: value * 2, lambda: 2 * value, lambda: value + value, lambda: value + 1,
                     lambda: 1 + value, lambda: value - 1, lambda: 1 - value, lambda: value / 2,
                     lambda: value // 2, lambda: value % 4, lambda: value << 1, lambda: 1 << value,
                     lambda: value & 3, lambda: value ^ value, lambda: -value, lambda: ~value,
                     lambda: sum([value, value])):
            with self.assertRaises(TypeError) as raised:
                call()
            self.assertIn("int(value)", str(raised.exception))
        self.assertEqual(("q=" + value, value + "b", "%s %d" % (value, value), value.join("()")),
                         ("q=1011", "1011b", "1011 11", "(1011)"))
        self.assertEqual("," .join([value, value]), "1011,1011")

    def test_formats(self):
        for digits, form, wanted in (
                ("01011", "x", "b"), ("01011", "#06x", "0x000b"), ("01011", "d", "11"),
                ("01011", "4d", "  11"), ("01011", "08b", "00001011"), ("01011", "", "01011"),
                ("01011", ">8", "   01011"), ("01011", "o", "13"), ("01011", "_b", "1011"),
                ("xxxx0001", "x", "x1"), ("xxxx0001", "04x", "00x1"), ("00xx", "x", "X"),
                ("00xx", "d", "xx"), ("000z", "4d", "   z"), ("z", "<3x", "z  "),
                ("0000zzzz", "X", "z"), ("x", "*^3d", "*x*"), ("xxx001", "o", "x1")):
            self.assertEqual(format(Value(digits), form), wanted, (digits, form))
        self.assertEqual("%x %d" % (Value("1011"), Value("11")), "b 3")


if __name__ == "__main__":
    unittest.main()
