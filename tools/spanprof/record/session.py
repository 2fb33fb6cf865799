"""One program, recorded once or several times: of several runs the one with the median elapsed time of those that
others disturbed least is kept, and what all of them took.
"""
import os
from contextlib import contextmanager
from dataclasses import dataclass, field
from typing import List

from spanprof import client
from spanprof.command import Fault
from spanprof.converting import convert_into, converter, has_failed, logs_in, recorder_library
from spanprof.diagnosis.facts import used_by_others
from spanprof.head import head_of
from spanprof.record.folder import (Work, check_file, check_folder, expect, is_launcher, note_of_others, of_rank,
                                    old_meta, process_of, rank_of, started, taken, usage_in_log, write_meta)
from spanprof.record.run import (Counters, Failed, environment, facts_of_run, processors_there_are, rewind, say,
                                 signal_name, tell, usage_of, watched)
from spanprof.record.runtime import choose, find, launched, linkage, note_of, refuse_targets, what_it_lacks
from spanprof.recording import ENDING, LOG, META, TEXT, open_recording
from spanprof.remarks import Messages

DISTURBED = 0.05    # of the processors' time, by which others took more in a run than in that in which they took least


@dataclass
class Recorded:
    """How the program ended, its recordings with a text, and what is reported."""
    status: int
    found: List[str] = field(default_factory=list)
    said: Messages = None

    @property
    def is_whole(self):
        """Whether there is a recording of all of the run: on a full disk there is one of its beginning."""
        return bool(self.found) and not (self.said and self.said.is_cut)


def check_earlier(path, out, is_replaced):
    """A fault before the run where there is no recording to compare with, or none would be left."""
    if not os.path.exists(path):
        raise Fault("--against %s: no such recording" % path)
    open_recording(path)
    if is_replaced and os.path.realpath(path) == os.path.realpath(out + ENDING):
        raise Fault("--force would replace %s, with which --against compares; --out names the new one" % path)


def notes_on(preload, called, is_asked=False):
    """What gcc's own runtime does all the same; where that computes otherwise, only if it was asked for."""
    lacking = what_it_lacks(preload, called) if preload and called else []
    if not is_asked:
        refuse_targets(lacking)
    return ["LLVM's runtime has no %s, which the program calls: gcc's is used there" % name for name in lacking]


def loaded_first(chosen, library):
    """The recorder's library stands before gcc's runtime and the system's functions, and behind LLVM's runtime."""
    if chosen.in_front:
        return ":".join(filter(None, [library, chosen.preload]))
    return ":".join([chosen.preload, library]) if chosen.preload else ""


def why_nothing(status, said, session):
    """The reason for which there is no text."""
    news = said.news(session.out)
    if status < 0:
        return "; ".join(["the program ended by %s" % signal_name(status)] + news)
    if said.loaded:
        return "; ".join(news) or "the recorder reported no reason"
    if session.has_runtime:
        return "the program met no construct of OpenMP"
    return "the program has no OpenMP runtime (libgomp, libomp), and loaded none: was it compiled with -fopenmp?"


class Session:
    processes, others = {}, ""      # those of the run, and a sentence on those that are not recorded

    def __init__(self, options):
        self.options = options
        self.path = find(options.command[0])
        launches = is_launcher(self.path)
        self.rank = None if launches else rank_of(os.environ)
        self.out = of_rank(os.path.abspath(options.out), self.rank)
        check_folder(options.out)
        check_file(options.json, "--json")
        self.comparison = None      # with an earlier recording, where that is asked for
        self.scale = None           # what more runs have measured
        if options.against:
            check_earlier(options.against, self.out, options.force)
        client.ask(["span"], "omptasks 1\n")    # a fault before the run, where nothing can read its recording
        for name in ("scale", "full"):
            if getattr(options, name) and (launches or self.rank is not None):
                raise Fault("--%s does not support MPI" % name)
        if launches and options.runs > 1:
            raise Fault("--runs does not support a launcher; use: mpirun -n 4 spanprof-record --runs 5 -- PROGRAM")
        target = launched(options.command) if launches else self.path
        linked = linkage(target)
        self.has_runtime = bool(linked.libraries or linked.inside)
        chosen = choose(target, linked, options.runtime)
        self.preload = chosen.preload
        self.library = os.path.realpath(recorder_library(tell))
        self.preload_recorded = loaded_first(chosen, self.library)
        self.converter = converter(tell)
        self.notes = notes_on(self.preload, linked.called, bool(options.runtime))
        self.work = None

    @contextmanager
    def begun(self):
        """While it holds, the recording's own folder is there."""
        self.work = Work(self.out, self.options.force)
        if self.work.is_renamed:
            why = "is there already" if taken(self.out) else "is being recorded, or its recording was killed"
            say("%s.spanprof %s: this recording is %s.spanprof (--force replaces the other)" % (
                self.out, why, os.path.basename(self.work.name)))
        try:
            yield
        finally:
            self.work.close()

    def variables(self, out, others=None):
        asked = environment(dict(os.environ, **others or {}), self.options, self.library, self.preload_recorded, out)
        return dict(asked, **others or {})

    def run(self, out, others=None):
        """One run, with other variables too, whose logs are OUT.spanprof/log and so on: how it ended."""
        with Counters() as counters:
            ended = watched(self.path, self.options.command, self.variables(out, others))
            return ended._replace(counters=counters.read())

    def facts_of(self, ended, out, folder):
        """What a recording tells of its run, and the system of its own process alone: the command may start others."""
        process = process_of(folder)
        usage = usage_in_log(folder) or (usage_of(ended.usage) if process == ended.process else {})
        processors = processors_there_are()
        if process in self.processes:
            processors = min(processors, self.processes[process].processors or processors)
        return {**facts_of_run(ended, usage, self.variables(out), processors),
                "arguments": self.options.command}

    def write(self, folder, out, ended):
        """The texts of a log in its folder, and what is reported of them."""
        tell("converting the log of " + os.path.basename(folder))
        reported = convert_into(self.converter, os.path.join(folder, LOG), folder, self.variables(out))
        self.note_once(note_of(os.path.join(folder, LOG)))
        if not has_failed(reported):
            write_meta(folder, self.facts_of(ended, out, folder))
        return reported

    def write_all(self, folders, out, ended):
        return Messages(bool(folders), [one for folder in folders for one in self.write(folder, out, ended)])

    def write_text(self, folder, out):
        """The text of the whole program of a log in its folder; empty where there is none."""
        if os.path.isdir(folder):
            convert_into(self.converter, os.path.join(folder, LOG), folder, self.variables(out))
        text = os.path.join(folder, TEXT)
        return text if os.path.exists(text) else ""

    def record_aside(self, out, others):
        """The program's end and the text of the whole program, of a run beside the one that is kept."""
        ended = self.run(out, others)
        return ended.status, self.write_text(out + ENDING, out)

    def note_once(self, note):
        if note and note not in self.notes:
            self.notes = self.notes + [note]

    def publish(self, said):
        """The recordings under their names, those of the program and its ranks that have what was asked for."""
        moved = self.work.publish()
        for folder in moved.values():
            if not os.path.exists(os.path.join(folder, META)):
                say("%s has the log alone; spanprof-convert makes its text, with --out elsewhere" % folder)
        found = [final for final in moved.values() if os.path.exists(os.path.join(final, TEXT))]
        return found, said.moved(moved)

    def note_end(self, ended):
        if ended.status < 0:
            self.note_once("the program ended by " + signal_name(ended.status))
        suspended = ended.host.get("suspended_ns")
        if suspended:
            self.note_once("the machine was suspended for %.1f s meanwhile: record again" % (suspended / 1e9))

    def record_once(self, more=None):
        """The program's end, the recordings, and what was said. `more` adds to the folder of the program's own, and
        answers what more is known of its run."""
        expect(self.work.stem)
        ended = self.run(self.work.stem)
        self.note_end(ended)
        folders = self.work.folders
        self.processes = started(self.work.stem)
        self.others = note_of_others(self.processes, set(map(process_of, folders)))
        said = self.write_all(folders, self.work.stem, ended)
        if more and ended.status:
            say("%s: no speedup" % Failed("the recorded run", ended.status))
        elif more and folders and not has_failed(said.things):
            write_meta(folders[0], {**old_meta(folders[0]), **more(self, folders[0])})
        found, said = self.publish(said)
        if not found:
            what = "the run is recorded, and its text is not made" if has_failed(said.things) else "nothing is recorded"
            say("%s: %s" % (what, why_nothing(ended.status, said, self)))
        return Recorded(ended.status, found, said)


def one_of_runs(session, number):
    """How one run ended, its folders, and what is reported of them. It has a folder of its own."""
    stem = os.path.join(session.work.part, "run%d" % number, os.path.basename(session.work.stem))
    os.mkdir(os.path.dirname(stem))
    rewind()
    ended = session.run(stem)
    folders = logs_in(os.path.dirname(stem))
    return ended, folders, session.write_all(folders, stem, ended)


def numbers_of(text, elapsed):
    reported, unit = client.measured(text), head_of(text).nanoseconds or 1
    return {"elapsed_ns": elapsed, "work_ns": reported["work"] * unit, "span_ns": reported["span"] * unit}


def others_share(meta):
    """Of the machine's processors' time during a run, that of other programs and its host."""
    host, usage = meta.get("host") or {}, meta.get("usage") or {}
    whole = (host.get("host_processors") or 0) * (meta.get("elapsed_ns") or 0)
    return (used_by_others(host, usage) or 0) / whole if whole else 0.0


def middle(numbers, shares):
    """Which run has the median elapsed time of those that others disturbed least, by their share of each."""
    least = [i for i, share in enumerate(shares) if share <= min(shares) + DISTURBED]
    return sorted(least, key=lambda i: numbers[i]["elapsed_ns"])[(len(least) - 1) // 2]


def keep(session, folders, numbers):
    """The folders of one run in the place of a single one's, with the numbers of all."""
    for folder in folders:
        kept = os.path.join(session.work.part, os.path.basename(folder))
        os.rename(folder, kept)
        if os.path.exists(os.path.join(kept, TEXT)):
            write_meta(kept, {**old_meta(kept), "runs": numbers})


def record_often(session):
    """As `record_once`; at a run that fails or leaves no text they end, and nothing is kept."""
    found, numbers, shares, runs = [], [], [], session.options.runs
    for i in range(1, runs + 1):
        tell("run %d of %d" % (i, runs))
        ended, folders, said = one_of_runs(session, i)
        status = ended.status
        texts = [path for path in (os.path.join(folder, TEXT) for folder in folders[:1]) if os.path.exists(path)]
        if status or not texts:
            why = why_nothing(status, said, session) if not texts else \
                "the program ended with status %d" % status
            say("run %d of %d is the last, and no recording is kept: %s" % (i, runs, why))
            return Recorded(status, [], said)
        found.append((folders, said))
        numbers.append(numbers_of(texts[0], ended.elapsed))
        shares.append(others_share(old_meta(folders[0])))
    folders, said = found[middle(numbers, shares)]
    keep(session, folders, numbers)
    moved, said = session.publish(said.moved({os.path.dirname(folders[0]): session.work.part}))
    return Recorded(0, moved, said)
