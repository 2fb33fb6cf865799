"""spanprof-record: a program's run as a program text, and what costs it time. It prints the diagnosis, and all that is
known of the run where that is asked for; of several processes of MPI of the one with the most work or for which the
others wait, and of the others a line each.
"""
import argparse
import os
import re
import shlex
import signal
import statistics
from typing import NamedTuple

from spanprof.answers import Answers
from spanprof.command import OWN_FAULT, Fault, Version, count, end_with, percent, show, unit
from spanprof.diagnosis.calls import IN_CALLS, is_of_ranks, samples_in
from spanprof.diagnosis.output import compared, comparison_lines, is_slower, output_of
from spanprof.head import lasting
from spanprof.record.folder import check_name, is_child, is_launcher, old_meta, rank_in
from spanprof.record.run import CONSOLE, end_as, processor_time, say, tell
from spanprof.record.runtime import launched
from spanprof.record.session import Session, record_often
from spanprof.recording import open_recording
from spanprof.time_breakdown import lines_of, recorded_breakdown

MUCH = 0.05     # of a rank's sampled time
LONGER = 1.5    # than the rank that is waited for
MORE = "spanprof-report %s"
OF_SEVERAL = "%s used the most processor time of %d recorded processes"
DESCRIPTION = """Records a run of an OpenMP program, and prints on standard error what costs it time and what to change
first."""
AFTER = """Everything after -- is the program and its arguments. The exit status is the program's, 2 for wrong
arguments, 3 if --fail-above was exceeded, 125 if nothing was recorded, 126 if the program cannot be run, 127 if it does
not exist. The program still reads OMP_* variables."""
MOST_RUNS = 99
RUNS_OF_A_SCALE, RUNS_OF_FULL = 5, 3
MOST_THREADS = 1024
SLOWER = 3      # than an earlier recording, by more than it may be


class Waits(NamedTuple):
    """Of one rank, in microseconds of its samples."""
    rank: int
    time: int
    sampled: int

    @property
    def shown(self):
        return lasting(1000 * self.time)


def waits_of(recording):
    """None of a process that is no rank, or without samples."""
    rank, time, sampled = rank_in(recording.folder), 0, 0
    if rank is None:
        return None
    for _, did, one, calls in samples_in(recording.file("calls")):
        if did in IN_CALLS:
            sampled += one
            time += one * is_of_ranks(calls)
    return Waits(rank, time, sampled) if sampled else None


def halves(waits):
    """The one that waits least, and the others, the shortest first."""
    first, *others = sorted(waits, key=lambda one: one.time)
    return first, others


def waited_for(waits):
    """The rank for which the others wait; None where no rank waits much less than they do."""
    if len(waits) < 2:
        return None
    first, others = halves(waits)
    usual = statistics.median(one.time for one in others)
    sampled = statistics.median(one.sampled for one in others)
    return first if usual - first.time > MUCH * sampled and usual > LONGER * first.time else None


def waits_line(waits):
    """In one line; empty where they do not wait much."""
    first = waited_for(waits)
    if first:
        _, others = halves(waits)
        return "the others wait for rank %d: %s to %s in calls of MPI, it %s" % (
            first.rank, others[0].shown, others[-1].shown, first.shown)
    if len(waits) < 2 or sum(one.time for one in waits) <= MUCH * sum(one.sampled for one in waits):
        return ""
    first, others = halves(waits)
    return "each waits in calls of MPI: %s to %s, none much less than the others" % (first.shown, others[-1].shown)


def answered(recording):
    tell("reading " + recording.name)
    return Answers(recording)


def rank_line(recording, answers):
    from spanprof.record.summary import other_region    # only ranks have other recordings
    waits = waits_of(recording)
    return other_region(answers) + (", waits %s in calls of MPI" % waits.shown if waits else "")


def diagnosed(recording, is_cut=False):
    """None where there is no diagnosis, and why: a log that was cut short has the beginning of the run alone."""
    if is_cut:
        return None, "no diagnosis, as the run is recorded in part"
    try:
        return output_of(recording), ""
    except (Fault, OSError) as wrong:
        return None, "no diagnosis: %s" % wrong


def print_diagnosis(session, recording, news, is_cut):
    """And how it differs from an earlier recording; answers it, or none and why."""
    diagnosis, why = diagnosed(recording, is_cut)
    if diagnosis:
        paths = os.path.relpath(recording.folder), os.path.abspath(recording.folder)
        show(diagnosis.lines(MORE % shlex.quote(min(paths, key=len)), news))
    if diagnosis and session.options.against:
        session.comparison = compared(output_of(open_recording(session.options.against)), diagnosis)
        show(comparison_lines(session.comparison))
    return diagnosis, why


def print_summary(session, recording, answers, others, news, is_cut):
    options = session.options
    diagnosis, why = print_diagnosis(session, recording, news, is_cut)
    if is_cut and not options.all:
        show(["%s: %s" % (recording.name, words) for words in news + [why]])
    if (diagnosis or is_cut) and not (options.all or options.json):
        return
    account, no_breakdown = recorded_breakdown(answers)
    if options.all or not (diagnosis or is_cut):
        from spanprof.record.summary import all_lines   # only --all has these
        show(all_lines(recording, answers, diagnosis, lines_of(account, no_breakdown),
                       news + list(filter(None, [session.others, why])), others))
    if options.json:
        from spanprof.run_json import run_json, write_json
        write_json(options.json, run_json(answers, diagnosis, account, no_breakdown))


def print_measured(session, pairs, news, is_cut):
    """Of recordings and what is answered of them: a summary of the rank that the others wait for, or of that with the
    most work, and of the others a line each."""
    if session.rank is not None:    # of one process of MPI, beside which others tell theirs
        show([rank_line(*pair) for pair in pairs] + ["%s: %s" % (session.work.name, one) for one in news])
        return
    waits = list(filter(None, (waits_of(recording) for recording, _ in pairs)))
    late, ranks = waited_for(waits), waits_line(waits)
    first = pairs[0] if len(pairs) == 1 else max(
        pairs, key=lambda pair: (late is not None and waits_of(pair[0]) == late, pair[1].work))
    others = [rank_line(*pair) for pair in pairs if pair is not first]
    print_summary(session, *first, others, news, is_cut)
    show(["rank  " + ranks] if ranks else [])


def chosen(folders):
    """Of these recordings of one command those to report: of ranks all, and else that with the most processor time."""
    ranks = [folder for folder in folders if not is_child(folder) and rank_in(folder) is not None]
    return ranks or [max(folders, key=lambda folder: processor_time(old_meta(folder).get("usage") or {}))]


def print_summaries(session, recorded):
    """Of the program and its ranks, or of one process of several."""
    folders, others = chosen(recorded.found), []
    if len(folders) == 1 and len(recorded.found) > 1:
        others = [OF_SEVERAL % (os.path.basename(folders[0]), len(recorded.found))]
    found = [open_recording(folder) for folder in folders]
    pairs = [(one, answered(one)) for one in found]
    remarks = {remark for _, answers in pairs for remark in answers.head.remarks}
    said = recorded.said.but_of(set(recorded.found) - set(folders))
    news = others + session.notes + said.news(session.out, [one.text for one in found], remarks)
    print_measured(session, pairs, news, recorded.said.is_cut)


def numbers_of_threads(word):
    """`1,2,4`: in order, with 1, against which a speedup is."""
    words = word.split(",")
    if not all(re.fullmatch(r"[0-9]{1,4}", one) and 1 <= int(one) <= MOST_THREADS for one in words):
        raise argparse.ArgumentTypeError("%s is not a list of numbers of threads, such as 1,2,4, up to %d" % (
            word, MOST_THREADS))
    numbers = sorted(set(map(int, words)))
    if numbers[0] != 1 or len(numbers) == 1:
        raise argparse.ArgumentTypeError("%s: expected 1, the base of the speedup, and another number" %
                                         word)
    return numbers


def parser():
    out = argparse.ArgumentParser(prog="spanprof-record", description=DESCRIPTION, epilog=AFTER, allow_abbrev=False,
                                  usage="spanprof-record [options] [--] PROGRAM [ARGUMENT ..]")
    add = out.add_argument
    add("--out", metavar="NAME", help="write the folder NAME.spanprof (default: the program's name); MPI processes "
        "write NAME.rank0.spanprof and so on, child processes NAME.child1.spanprof")
    add("--force", action="store_true", help="replace an existing recording; without it the new one is NAME-2.spanprof")
    add("--unit", type=unit, help="the unit of costs: ns (default), us, ms, or a number of nanoseconds")
    add("--clock", choices=("wall", "cpu"), help="measure wall time, or processor time of each thread "
        "(default: wall time without preemption)")
    add("--threads", type=count(1, MOST_THREADS), metavar="P", help="run with OMP_NUM_THREADS=P")
    add("--runs", type=count(1, MOST_RUNS), metavar="N",
        help="run the program N times, and keep the recording of the run with the median elapsed time of those least "
        "disturbed")
    add("--scale", type=numbers_of_threads, metavar="1,P,..",
        help="measure the true speedup: record the program on the most of these numbers of threads, then run it N "
        "times (--runs, default 5) on each without recording, with what --full adds")
    add("--full", action="store_true",
        help="run the program seven times more, unrecorded on as many threads and on one, and recorded on one: true "
        "times, the speedup, and which code costs more on more threads")
    add("--calibrate", action="store_true",
        help="no program: measure what a task costs in the runtime on this machine, for spanprof-predict")
    add("--call-paths", action="store_true",
        help="record the calls that led to each creation of a task, and distinguish its callers")
    add("--runtime", metavar="llvm|gnu|FILE", help="run on LLVM's runtime, on gcc's, or on the one in FILE (default: "
        "the runtime that the program is linked with)")
    add("--against", metavar="BEFORE.spanprof",
        help="compare with an earlier recording: whether the program is faster, where, and what was predicted")
    add("--fail-above", type=percent, metavar="5%",
        help="with --against: exit with status 3 if the program is slower by more than this")
    add("--all", action="store_true", help="print everything known of the run after the diagnosis")
    add("--json", metavar="FILE", help="write the diagnosis as JSON, too")
    add("--version", action=Version)
    add("command", nargs=argparse.REMAINDER, metavar="PROGRAM [ARGUMENT ..]", help="the program to run")
    return out


def named_after(command):
    """Of a launcher's words the program that it launches."""
    try:
        return launched(command) if is_launcher(command[0]) else command[0]
    except Fault:
        return command[0]  # the session says what is wrong with it


def parse(words):
    reader = parser()
    chosen = reader.parse_args(words)
    if chosen.command[:1] == ["--"]:
        del chosen.command[0]
    if chosen.calibrate and chosen.command:
        reader.error("--calibrate takes no program")
    if not (chosen.command or chosen.calibrate):
        reader.error("no program to run; example: spanprof-record -- ./mine")
    if chosen.calibrate:
        return chosen
    if chosen.out is None:
        chosen.out = os.path.basename(named_after(chosen.command))
    check_name(reader, chosen.out)
    if chosen.scale and chosen.threads:
        reader.error("--scale does not combine with --threads")
    if chosen.fail_above is not None and not chosen.against:
        reader.error("--fail-above needs --against")
    if chosen.full and (chosen.scale or chosen.runs):
        reader.error("--full does not combine with --scale and --runs")
    chosen.runs = chosen.runs or (RUNS_OF_A_SCALE if chosen.scale else RUNS_OF_FULL if chosen.full else 1)
    chosen.threads = chosen.scale[-1] if chosen.scale else chosen.threads
    return chosen


def record_as_asked(session):
    if session.options.scale or session.options.full:
        from spanprof.record.scale import more_runs   # only these need more runs
        return session.record_once(more_runs)
    return record_often(session) if session.options.runs > 1 else session.record_once()


def report(session, recorded):
    """The table of --scale stands behind the summary."""
    try:
        if recorded.found:
            print_summaries(session, recorded)
    finally:
        if session.scale and session.options.scale:
            from spanprof.record.scale import named_table
            show(named_table(session.scale))


def record_and_report(options):
    """The exit status, or less than 0 the signal. What goes wrong here counts only where the program ended with 0."""
    status = 0
    try:
        session = Session(options)
        with session.begun():
            recorded = record_as_asked(session)
        status = recorded.status
        report(session, recorded)
        if is_slower(session.comparison, options.fail_above):
            return status or SLOWER
        return status if recorded.is_whole else status or OWN_FAULT
    except Fault as fault:
        say(str(fault))
        return status or fault.status
    except KeyboardInterrupt:
        return status or -signal.SIGINT


def answer(options):
    if options.calibrate:
        from spanprof.record.calibrate import calibrate
        show(calibrate(options))
    else:
        end_as(record_and_report(options))


def main(words):
    end_with(CONSOLE, lambda: answer(parse(words)), status=OWN_FAULT)
