"""Lists the times at which a condition on signals begins to hold

Put the condition in single quotes, because `&`, `|`, `<`, `>` and `!` are special to the shell. It
is evaluated at the end of each time step in which one of its signals changes, or at the edges of a
clock, with the values just before. It is an expression of Verilog over paths:
  tb.bus[7:4] + 1 == 0xff    "tb.a&b" === 4'b1x0z    tb.q is not x    signed(tb.a) < -1
  tb.q inside {1, [4:7]}    age(tb.clk) > 20ns    $onehot(tb.grant)
  past(tb.q, 2) == 3 & rose(tb.a)  at edges of the clock; also fell, stable and changed
  req -> ack within 5  req begins to hold, and ack holds at most 5 edges later; or within 2..5, 20ns
  !(req -> ack within 5)  it does not
A result that depends on x is x, and x does not hold. More is in extras/README.md.

With --rules, FILE may be a directory, which stands for all dumps in it and below it.

examples:
  vcdkit-when --rise tb.clk --every --count sim.vcd.gz 'tb.valid & tb.ready'
  vcdkit-when --latency --rise tb.clk sim.vcd 'tb.req -> tb.ack within 50'
  vcdkit-when --rules rules.txt --junit rules.xml --rise tb.clk sim.vcd"""
import argparse
import os
import re
import sys
from typing import Callable, Dict, Iterable, List

from ..errors import UsageError
from ..forms.junit import Test
from ..forms.many import answer_file
from ..forms.text import counted, mean_text, write_json
from ..questions.dump import Dump
from ..questions.when import Asked, Question, Questions, named
from ..reading.files import lines_in
from . import FAULT, dump_of, parser, part_of, question, times_of

WORDED = re.compile(r"(never +|always +|each +|)(.*)", re.S)


def words_of(words: List[str]) -> argparse.Namespace:
    """Reads the command line."""
    options = parser("vcdkit-when", __doc__, "it held at some time", "it never held",
                "usage error, a bad condition, %s" % FAULT)
    form = options.add_mutually_exclusive_group()
    form.add_argument("--first", action="store_true", help="list only the first time; with "
                      "--rules, end at the first time at which a rule turns out not to be met")
    form.add_argument("--count", action="store_true", help="write only the number of times")
    form.add_argument("--latency", action="store_true", help="for req -> ack within N, also list "
                      "when ack follows and after how long")
    options.add_argument("--rules", metavar="FILE", help="evaluate the rules in this file: a line "
                         "is `name: condition` (it has to hold at some time), `name: never ..`, "
                         "`name: always ..`, or `name: each req -> ack within N`, which gives each "
                         "request an answer of its own. A rule called name@CLOCK is evaluated at "
                         "the rising edges of this clock, name@!CLOCK at the falling ones")
    options.many(", with a test for each rule")
    options.clock("evaluate at the %s edges of this signal")
    options.add_argument("--every", action="store_true", help="list each edge at which it holds, "
                         "not only those at which it begins to")
    options.add_argument("--never", action="store_true", help="for a CI job: exit with 0 if it "
                         "never held and with 1 if it did")
    options.add_argument("--open-fails", action="store_true", help="count a request that is open "
                         "at the end as one without an answer")
    options.window().unit().json().file()
    options.add_argument("condition", metavar="CONDITION", nargs="?",
                         help="a condition (see below); not with --rules")
    asked, rest = options.parsed(words)
    if rest and rest[0][:1] == "-":
        options.refuse(rest)
    if rest:
        options.error("put the condition in single quotes")
    if (asked.condition is None) == (asked.rules is None):
        options.error("give a CONDITION, or --rules FILE")
    if asked.rules is not None and (asked.count or asked.latency):
        options.error("--rules goes with none of --count and --latency")
    if asked.rules is None and os.path.isdir(asked.file):
        options.error("a directory of dumps goes with --rules")
    if asked.junit is not None and asked.rules is None:
        options.error("--junit goes with --rules")
    return asked


def rules_of(path: str) -> List[Asked]:
    """Returns the rules in a file."""
    found: Dict[str, Asked] = {}
    for place, line in lines_in(path):
        front, sign, condition = line.partition(": ")
        (name, clock), (word, text) = named(front, place), re.findall(WORDED, condition)[0]
        if not sign or not name:
            raise UsageError(place + "a rule is `name: condition`")
        if name in found:
            raise UsageError("%sthere is a rule %s before" % (place, name))
        found[name] = Asked(name, text, clock, word.strip(), place)
    if not found:
        raise UsageError("%s: it has no rule" % path)
    return [*found.values()]


def list_times(times: Iterable[int], text: Callable[[int], str], asked: argparse.Namespace) -> int:
    """Writes the times at which a condition holds; returns how many there are."""
    count = 0
    for time in times:
        count += 1
        if not asked.count:
            write_json({"time": time}) if asked.json else print(text(time))
        if asked.first:
            break
    if asked.count:
        write_json({"count": count}) if asked.json else print(count)
    return count


def late_by(one: Question, text: Callable[[int], str]) -> str:
    """Returns by how much the latest answer is late."""
    by = text(one.latest) if one.has_time else counted(one.latest, "edge")
    return "late by %s at most" % by if one.late else "late"


def late_text(one: Question, text: Callable[[int], str]) -> str:
    """Returns how many requests got no answer in time."""
    return "%d %s, %d without an answer" % (len(one.late), late_by(one, text), len(one.lost))


def note_of(one: Question, text: Callable[[int], str]) -> str:
    """Returns what became of requests; an empty text if the condition has none."""
    overlaps = "; %d begin before the previous one is answered, and get the same answer: with " \
        "%s, each gets its own" % (one.overlaps, "`each req -> ack within N`" if one.asked.name
                                   else "vcdkit-table --channel")
    return "%s, %s, %d open at the end%s" % (
        counted(one.requests, "request"), late_text(one, text), len(one.waiting), overlaps * bool(
            one.overlaps and not one.in_order)) if one.condition.answer else ""


def list_latencies(asking: Questions, dump: Dump, text: Callable[[int], str],
                   asked: argparse.Namespace) -> int:
    """Writes when each request gets its answer, and how long that takes; returns how many do."""
    one, lengths = asking.each[0], []  # type: Question, List[int]
    shown = text if one.has_time else (lambda count: str(count))
    for _, (begin, answer, length) in asking.outcomes():
        lengths += [length] * (answer is not None)
        if answer is not None and asked.json:
            write_json({"time": begin, "answer": answer, "length": length})
        elif answer is not None:
            print(text(begin), text(answer), shown(length))
    if lengths and not asked.json:
        mean = sum(lengths) / len(lengths)
        print("least %s, mean %s, greatest %s, %d in time, %s" % (
            shown(min(lengths)), mean_text(dump.timescale, mean, asked.unit) if one.has_time
            else "%.6g" % mean, shown(max(lengths)), len(lengths), late_text(one, text)))
    elif (one.late or one.lost) and not asked.json:
        print("0 in time, " + late_text(one, text))
    return len(lengths)


def line_of(one: Question, its: List[int], text: Callable[[int], str]) -> str:
    """Returns the first time of a list and how many there are; of requests in order each kind."""
    kinds = ["%d %s%s" % (len(times), what, " (%s%s)" % (
        text(times[0]), ", .." * (len(times) > 1)) if times else "") for what, times in (
            ("without an answer", [time for time, _ in one.lost]),
            ("without a request", one.surplus), (late_by(one, text), one.late))
             if times or what != "late"]
    return "%s, %s%s" % (text(its[0]), counted(its[1], "time"),
                         ": " + ", ".join(kinds) if one.in_order else "")


def list_rules(asking: Questions, rules: List[Asked], text: Callable[[int], str],
               asked: argparse.Namespace, tests: List[Test]) -> List[str]:
    """Writes a line for each rule whose list has times: its name, the first time, and how many
    there are; returns the names of the rules that are not met. Adds a test for each."""
    found: Dict[int, List[int]] = {}  # of each rule that held the first time, and the count
    end = "at a fault"  # where the pass ended, if that was not at the end of the dump
    try:
        for time, numbers in asking.times():
            for number in numbers:
                its = found.setdefault(number, [time, 0])
                its[1] += 1
            if asked.first and not all(rules[one].is_met(True, asked.never) for one in numbers):
                end = "with --first"
                break
        else:
            end = ""
    finally:
        missed = []
        for number, (rule, one) in enumerate(zip(rules, asking.each)):
            its, facts, note = found.get(number, []), one.facts(), note_of(one, text)
            if asked.json and (its or facts):
                first, count = its or (None, 0)
                write_json({"rule": rule.name, "first": first, "count": count, **facts})
            elif its:
                print("%s: %s" % (rule.name, line_of(one, its, text)))
            is_wrong = not rule.is_met(bool(its), asked.never) and bool(its or not end)
            missed += [rule.name] * is_wrong
            # Why the rule says nothing although no failure is known.
            is_undecided = end == "at a fault" or bool(end) and not its
            why = "it ended " + end if is_undecided else (
                asking.idle(number) or note * (facts.get("requests") == 0))
            tests.append(Test(asking.dump.name, rule.name, "failure" if is_wrong else
                              "skipped" * bool(why), line_of(one, its, text) if its else
                              why or "it never held", rule.condition, note))
    return missed


def answer(asked: argparse.Namespace, tests: List[Test]) -> int:
    """Writes the answer, and returns the status. Adds a test for each rule."""
    rules = (rules_of(asked.rules) if asked.rules is not None
             else [Asked("", asked.condition)])
    dump = dump_of(asked)
    text = times_of(dump, asked)
    asking = Questions(part_of(dump, asked), rules, asked.rise, asked.fall, asked.every, (),
                       asked.open_fails)
    if asked.latency and (asking.each[0].is_refusal or not asking.each[0].condition.answer):
        raise UsageError("latencies are those of a condition such as req -> ack within 50")
    if asked.rules is not None:
        missed = list_rules(asking, rules, text, asked, tests)
        status, is_known = int(bool(missed)), bool(missed)
    else:
        count = (list_latencies(asking, dump, text, asked) if asked.latency
                 else list_times((time for time, _ in asking.times()), text, asked))
        status, is_known = int((count > 0) == asked.never), count > 0
    is_whole = not (asked.first and is_known)
    sys.stdout.flush()
    for one in asking.each if is_whole else ():
        facts = one.facts()
        is_odd = facts and (facts["open"] or facts.get("overlaps") or not facts["requests"])
        if is_odd or facts and asked.rules is None:
            print("vcdkit-when: %s%s%s" % ("warning: " if is_odd else "", one.asked.front,
                                           note_of(one, text)), file=sys.stderr)
    for number, rule in enumerate(rules if is_whole else ()):
        why = asking.idle(number) if asked.never or rule.word else ""
        if why:
            raise UsageError(rule.front + why)
    if asked.rules is not None:
        names = ", ".join(missed[:3]) + ", .." * (len(missed) > 3)
        print("vcdkit-when: %s, %s" % (
            counted(len(rules), "rule"), "not met: " + names if missed else "all met"),
              file=sys.stderr)
    return status


@question
def main(words: List[str]) -> int:
    return answer_file("vcdkit-when", answer, words_of(words))
