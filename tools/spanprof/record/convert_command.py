"""spanprof-convert: makes the text of a recording anew from its log, or a text of a part of it: of a region, or of the
run from where a region begins on, or until another one does, as a recording of its own.
"""
import argparse
import os
import re
import shutil
import struct
import sys

from spanprof.command import Console, Fault, Version, end_with, naming, reading, unit, writing
from spanprof.converting import convert, convert_into, converter, has_failed, made_text, no_region, of_region
from spanprof.diagnosis.calls import plain
from spanprof.diagnosis.facts import function_in
from spanprof.head import head_of, head_text
from spanprof.program_text import BLOCKS, HEADER, TextFile
from spanprof.record.folder import check_folder, check_name, old_meta, write_meta
from spanprof.recording import (ENDING, LOG, META, REGIONS, TEXT, TIMES, is_recording, made_folder, open_recording,
                                program_of, times_in)
from spanprof.remarks import sentence_of

ANY_BYTES = {"encoding": "utf-8", "errors": "surrogateescape"}
SECONDS, WORD = re.compile(r"\d+(\.\d*)?s?"), re.compile(r"\s*(\w+|\})?")
SECOND = 10 ** 9
OF_THE_PART = ("recorded", "whole program", "divided", "clock reading", "place", "source", "short chunks",
               "few turns", "remark")
MOST_NAMED = 5
CONSOLE = Console("spanprof-convert")
BYTES = "surrogateescape"   # which keeps them, whatever they encode
DESCRIPTION = """Makes the text of a recording again from its log; with --region, the text of one parallel region:
NAME.tasks, and NAME.timed with its times."""
AFTER = "Exit status 1: a log that cannot be converted, or a text that cannot be written; 2: wrong arguments."
MOST_LINES, LONGEST = 1000, 1000    # of the comments before a text's first word
OF_A_PART = ("threads", "processors", "arguments", "unit", "runtime")     # what a recording tells of all its run
OF_PROGRAM = "=56xq80x256s"      # of a log's head: the time of the day in nanoseconds, and the program's path
WANTED = "; a recording is the folder NAME.spanprof that spanprof-record leaves"


def moment(asked, text, after=0):
    """In nanoseconds: that of seconds, or when the next region at a place or in a function begins."""
    if SECONDS.fullmatch(asked):
        return int(float(asked.rstrip("s")) * SECOND)
    regions, functions = program_of(text).regions, head_of(text).functions
    named = {place: (place, plain(place), function_in(functions.get(place, "")))
             for place in {region.place for region in regions}}
    found = [region.begin for region in regions if region.begin >= after and asked in named[region.place]]
    if not found:
        raise Fault("%s: neither seconds nor a region that begins there; regions are at %s" % (
            asked, ", ".join(sorted(filter(None, named))[:MOST_NAMED])))
    return found[0]


def statements_of(lines):
    """Those of the root: their lines, and how many segments each opens, of which the last is the root's."""
    blocks, statement, opened = [], [], 0
    for line in lines:
        word = WORD.match(line)[1]
        if word in (None, HEADER):
            continue
        statement.append(line)
        opened += word not in ("work", "taskgroup")
        if word in BLOCKS:
            blocks.append(word)
        elif word == "}":
            blocks.pop()
        if not blocks:
            yield statement, opened
            statement, opened = [], 0


def cut(lines, times, begin, end):
    """What the root meets from one moment on and before another, with its own code behind each: the lines, and the
    segments. Of the first, the root's own, nothing is left."""
    kept, segments, root, is_kept = [], [], 0, False
    for statement, opened in statements_of(lines):
        if opened:
            is_kept = begin <= times[root][2] < end
            if is_kept:
                segments += [root] * (not segments) + list(range(root + 1, root + opened + 1))
            root += opened
        kept += statement if is_kept else []
    if not segments:
        raise Fault("no region begins in that part of the run")
    return kept, segments


def region_lines(path, begin, elapsed):
    """In nanoseconds; the first row is the program's, with the time outside of regions."""
    with reading(path), open(path, **ANY_BYTES) as file:
        names, _, *rows = (line.rstrip("\n") for line in file)
    kept, outside, reached = [], elapsed, 0
    for number, text, first, last, rest in (row.split(",", 4) for row in rows):
        first, last = int(first) - begin, min(int(last) - begin, elapsed)
        if 0 <= first < last:
            kept.append("%s,%s,%d,%d,%s" % (number, text, first, last, rest))
            outside -= max(0, last - max(first, reached))
            reached = max(reached, last)
    return [names, "0,0,0,%d,1,0,0,0,%d,0," % (elapsed, outside), *kept]


def by_segment(path, numbers):
    """Lines that begin with a segment's number."""
    if not path:
        return []
    with reading(path), open(path, **ANY_BYTES) as file:
        rows = (line.rstrip("\n").partition(" ") for line in file)
        return ["%d %s" % (numbers[int(number)], rest) for number, _, rest in rows if int(number) in numbers]


def write(path, lines):
    with naming(path), open(path, "w", **ANY_BYTES) as file:
        file.writelines(line.rstrip("\n") + "\n" for line in lines)


def write_stretch(recording, folder, begin, end):
    """The files of the part between two moments in nanoseconds; what is reported of locks is of the whole run."""
    with reading(recording.times):
        (threads, *_), (_, *columns) = times_in(recording.times)
    times = list(zip(*columns))     # of each segment worker, begin and end
    with reading(recording.text), open(recording.text, **ANY_BYTES) as text:
        lines, segments = cut(text, times, begin, end)
    origin = times[segments[0]][2]
    elapsed = max(times[segment][2] for segment in segments) - origin
    numbers = {segment: number for number, segment in enumerate(segments) if number}
    head = [line for line in head_text(recording.text).splitlines() if line[2:].partition(":")[0] in OF_THE_PART]
    rows = ((times[segment][0], max(0, times[segment][1] - origin), times[segment][2] - origin) for segment in segments)
    with naming(folder):
        os.mkdir(folder)
    in_unit = elapsed // (head_of(recording.text).nanoseconds or 1)
    files = {TEXT: [*head, "# elapsed: %d" % in_unit, HEADER + " 1", *lines],
             TIMES: ["times %d 0 %d" % (threads, elapsed), *("%d %d %d %d" % (i, *row) for i, row in enumerate(rows))],
             REGIONS: region_lines(recording.file(REGIONS), origin, elapsed),
             **{name: by_segment(recording.file(name), numbers) for name in ("off", "calls")}}
    for name, found in files.items():
        write(os.path.join(folder, name), found)
    if recording.file("locks"):
        shutil.copy(recording.file("locks"), folder)


def parser():
    out = argparse.ArgumentParser(prog="spanprof-convert", description=DESCRIPTION, epilog=AFTER,
                                  allow_abbrev=False, usage="spanprof-convert [options] NAME.spanprof")
    add = out.add_argument
    add("--out", metavar="NAME", help="write another recording, NAME.spanprof, with a link to the log; with --region, "
        "write NAME.tasks")
    add("--unit", type=unit, help="the unit of costs: ns (default), us, ms, or a number of nanoseconds")
    add("--region", metavar="FILE:LINE",
        help="make the text of the region there; of several, of the one with the median work")
    add("--text", action="store_true", help="print the text instead of writing it")
    add("--from", dest="begin", metavar="WHEN", help="write a recording of a part of the run, NAME.part.spanprof: from "
        "the region that begins then, at a number of seconds, FILE:LINE or a function")
    add("--until", metavar="WHEN", help="leave out of it what begins then or later")
    add("--version", action=Version)
    add("recording", metavar="NAME.spanprof", help="a recording, or the folder of a log")
    return out


def parse(words):
    reader = parser()
    chosen = reader.parse_args(words)
    if chosen.out is not None:
        check_name(reader, chosen.out)
    return chosen


def is_text(path):
    """Whether the first word of a file behind its comments is that of a text."""
    if not os.path.isfile(path):
        return False
    with open(path, "rb") as file:
        lines = [file.readline(LONGEST).split() for _ in range(MOST_LINES)]
    first = next((words[0] for words in lines if words and not words[0].startswith(b"#")), b"")
    return first == HEADER.encode()


def log_of(path):
    """The log of a recording, or the folder itself where it is one; else a fault says what it is."""
    path = path.rstrip(os.sep) or path
    if not os.path.exists(path):
        raise Fault("%s: no such folder%s" % (path or "''", WANTED))
    if is_text(path):
        raise Fault("%s: a program text already: spanprof-report makes its page, spanprof-whatif changes it" % path)
    if not os.path.isdir(path):
        raise Fault("%s: not a folder%s" % (path, WANTED))
    found = next((log for log in (os.path.join(path, LOG), path) if os.path.exists(os.path.join(log, "head"))), None)
    if not found:
        raise Fault("%s: there is no log in this folder%s" % (path, WANTED))
    return found


def warn_of_newer_program(log):
    """Its places are read from the program's file as it is now."""
    try:
        with open(os.path.join(log, "head"), "rb") as file:
            began, path = struct.unpack(OF_PROGRAM, file.read(struct.calcsize(OF_PROGRAM)))
        path = os.fsdecode(path.partition(b"\0")[0])
        if began < os.stat(path).st_mtime_ns:
            CONSOLE.say("warning: %s was built after this run: functions and lines may be wrong" % path)
    except (OSError, struct.error):
        pass


def variables(chosen, folder):
    """What the converter takes; the unit is that of the text that is there, where no other is asked for."""
    unit_there = str(old_meta(folder).get("unit", "")).partition(" ")[0]
    unit_asked = chosen.unit or unit_there
    return dict(os.environ, **({"SPANPROF_UNIT": unit_asked} if unit_asked else {}))


def tell_all(reported, made="", name=""):
    """Ends with a fault where something could not be done. Files are named as they are in the end."""
    for one in reported:
        CONSOLE.say(sentence_of(one).replace(made, name) if made else sentence_of(one))
    if has_failed(reported):
        raise Fault("nothing is written; --out names a recording elsewhere")


def target(chosen, log):
    """The folder that the text is written into: that of the log, or a new one, with a link to the log."""
    own = chosen.recording.rstrip(os.sep)
    if chosen.out is None and is_recording(own):
        return own
    folder = (chosen.out or own.removesuffix(".log")) + ENDING
    check_folder(folder)
    if os.path.exists(folder):
        raise Fault("%s is there already; --out names another" % folder)
    with naming(folder):
        os.mkdir(folder)
        os.symlink(os.path.abspath(log), os.path.join(folder, LOG))
    return folder


def write_recording(chosen, program, log):
    folder = target(chosen, log)
    facts = {**old_meta(chosen.recording), "unit": variables(chosen, chosen.recording).get("SPANPROF_UNIT", "ns")}
    reported = convert_into(program, log, folder, variables(chosen, chosen.recording))
    if has_failed(reported) and folder != chosen.recording.rstrip(os.sep):
        shutil.rmtree(folder)
    if not has_failed(reported):
        if os.path.exists(os.path.join(folder, META)):
            os.remove(os.path.join(folder, META))
        write_meta(folder, {name: value for name, value in facts.items() if name != "files"})
    tell_all(reported)


def part_text(chosen, program, log, out, name):
    """The text of a region, or of the program in another unit."""
    asked = variables(chosen, chosen.recording)
    asked = of_region(asked, chosen.region) if chosen.region else dict(asked, SPANPROF_WHOLE="1")
    reported = convert(program, log, out, asked)
    tell_all([one for one in reported if one["message"] != "text"], out, name)
    text = made_text(out)
    if not text and chosen.region:
        raise no_region(open_recording(chosen.recording), chosen.region)
    if not text:
        raise Fault("%s: no text can be made" % chosen.recording)
    return text


def print_text(path):
    with open(path, encoding="utf-8", errors="surrogateescape", newline="") as file:
        shutil.copyfileobj(file, sys.stdout)


def write_part(chosen, program, log):
    """Moves text and times of the part to where they are asked for."""
    stem = chosen.recording.rstrip(os.sep).removesuffix(ENDING)
    name = chosen.out or stem + ".region" * bool(chosen.region)
    made = part_text(chosen, program, log, os.path.join(made_folder(), "part"), name)
    if chosen.text:
        print_text(made)
        return
    check_folder(name)
    for ending in (".tasks", ".timed"):
        part = made.removesuffix(".tasks") + ending
        if os.path.exists(part):
            with open(part, encoding="utf-8", errors=BYTES) as text, writing(name + ending, errors=BYTES) as file:
                shutil.copyfileobj(text, file)
            os.remove(part)
            CONSOLE.say("written: " + name + ending)


def write_run_part(chosen):
    recording = open_recording(chosen.recording)
    if not recording.times or TextFile(recording.text).has_loops():
        raise Fault("%s: only a recording with times has parts of its run" % recording.name)
    begin = moment(chosen.begin, recording.text) if chosen.begin else 0
    end = moment(chosen.until, recording.text, begin + 1) if chosen.until else sys.maxsize
    folder = (chosen.out or recording.stem + ".part") + ENDING
    check_folder(folder)
    write_stretch(recording, folder, begin, end)
    write_meta(folder, {name: value for name, value in recording.meta.items() if name in OF_A_PART})
    CONSOLE.say("written: " + folder)


def answer(chosen):
    if chosen.begin or chosen.until:
        write_run_part(chosen)
        return
    if chosen.text and not (chosen.region or chosen.unit):
        print_text(open_recording(chosen.recording).text)
        return
    log = log_of(chosen.recording)
    warn_of_newer_program(log)
    program = converter(CONSOLE.say)
    if chosen.region or chosen.text:
        write_part(chosen, program, log)
    else:
        write_recording(chosen, program, log)


def main(words):
    end_with(CONSOLE, lambda: answer(parse(words)))
