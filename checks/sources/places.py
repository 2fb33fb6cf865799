#!/usr/bin/env python3
"""Compares the places that a new command, statement, cause or event takes with those that CONTRIBUTING.md lists.

    checks/sources/places.py         what does not agree; status 1 if anything does not
    checks/sources/places.py --all   the files that name commands, statements, causes, and events
A file that names all commands or causes but one at most has a place for each, and so has a file of code that names two
statements or three quarters of the events of a log. Words that are plain English, such as `run` and `work`, don't
count. CONTRIBUTING.md has a table for each. Its first column names files and folders, or `FOLDER`: and then what lies
there. Each of them has to hold such a file, or one that names a word, and each such file has to be one of them or lie
below one. Files and folders that it names elsewhere have to exist. LOG.md has the version and a row for each event of
a log.
"""
import pathlib
import re
import subprocess
import sys

TOP = pathlib.Path(__file__).resolve().parents[2]
PLAIN_ENGLISH = {"check", "run", "show", "span", "task", "work"}
NO_RECORD = {"Nothing", "Sample"}
RECORDER = "tools/openmp_recorder/"
NO_PLACES = re.compile(r"(^|/)(must-fail|edits|out)/")
NO_CODE = re.compile(r"\.(md|tasks|csv|log)$|(^|/)tests?/|_tests/|(^|/)test_|^examples/|^checks/recorders/openmp|"
                     "/predictions/unseen")


def commands(source):
    """The commands' words, by the source that tells clap of them."""
    return set(re.findall(r'(?:Command::new|with_option|with_changes)\(alloc, "(\w+)"', source)) - {"spanprof"}


def statements(definitions):
    """The statements' words, by the definition of them."""
    return set(re.findall(r'codes "(\w+)"', definitions.partition("is_statement_word text =")[2].partition("\n\n")[0]))


def causes(source):
    """The kinds of a diagnosis' causes that are no plain English, by their table."""
    return {kind for kind in re.findall(r'Cause\("(\w+)"', source) if "_" in kind}


def events(source):
    """The events of a log, as C++ names them in small letters, by their enumeration."""
    cases = source.partition("enum class RecordKind")[2].partition("};")[0]
    return {"recordkind::" + case.lower() for case in re.findall(r"^  (\w+)", cases, re.M)} - {"recordkind::nothing"}


def named(words, text):
    """Those of the words that a text names, by themselves or in a name of the code, and that are no plain English."""
    small = text.lower()
    return {word for word in words - PLAIN_ENGLISH if word in small and re.search(r"(?<![a-z])" + word, small)}


def listed(page, heading):
    """The paths in the first column of the table below a heading."""
    section = page.partition(f"\n## {heading}\n")[2].partition("\n## ")[0]
    for row in re.findall(r"^\| ([^|]*)\|", section, re.M):
        folder, _, rest = row.rpartition(":")
        within = "".join(f"{name}/" for name in re.findall(r"`([^`]*)`", folder))
        yield from (within + name for name in re.findall(r"`([^`]*)`", rest))


def gone(page, paths):
    """The files and folders that the page names and that do not exist; capitals such as NAME stand for any word."""
    for name in re.findall(r"`([\w./-]*(?:/|\.[a-z]+))`", page):
        pattern = re.sub("[A-Z_]{4,}", r"\\w+", re.escape(name.rstrip("/")))
        if not any(re.search("(^|/)%s(/|$)" % pattern, path) for path in paths):
            yield f"CONTRIBUTING.md names {name}, which does not exist"


def log_faults(kinds, form, page):
    """Where LOG.md differs from the sources: by the version, and by the numbers of kinds."""
    version, described = (re.search(pattern, text) for pattern, text in (
        (r"\bversion = (\d+);", form), (r"This is version (\d+)\.", page)))
    if not version or not described or version[1] != described[1]:
        yield "LOG.md and log_form.hpp have different versions of the log"
    cases = re.findall(r"^  (\w+)", kinds.partition("enum class RecordKind")[2].partition("};")[0], re.M)
    rows = re.findall(r"^\| ([\d, ]+) \|", page.partition("| Kind |")[2].partition("\n\n")[0], re.M)
    numbers = {int(number) for row in rows for number in row.split(",")}
    for number, case in enumerate(cases):
        if number not in numbers and case not in NO_RECORD:
            yield f"LOG.md has no row for the kind {number}, {case}"


def is_below(path, place):
    return path == place or path.startswith(place + "/")


def faults(what, places, files, words, least):
    """Where the listed places differ from the files that name at least so many of the words."""
    has = {path: named(words, text) for path, text in files.items()}
    for path in sorted(path for path, found in has.items() if len(found) >= least):
        if not any(is_below(path, place) for place in places):
            yield f"{path} has a place for each {what}, and CONTRIBUTING.md does not list it"
    for place in places:
        if not any(found and is_below(path, place) for path, found in has.items()):
            yield f"CONTRIBUTING.md lists {place}, which names no {what}"


def paths_of(top):
    reported = subprocess.run(["git", "ls-files", "-co", "--exclude-standard"], cwd=top, capture_output=True, text=True)
    return reported.stdout.split("\n")


def files_of(top):
    """The texts of the files that are kept, by path."""
    texts = {}
    for path in paths_of(top):
        if path and not NO_PLACES.search(path) and (top / path).is_file():
            try:
                texts[path] = (top / path).read_text()
            except UnicodeDecodeError:
                pass
    return texts


def main(arguments):
    files = files_of(TOP)
    page = files.pop("CONTRIBUTING.md")
    words = commands(files["crates/command_words/src/program.rt"])
    marks = statements(files["crates/program_text/specs/Words.antt"])
    code = {path: text for path, text in files.items() if not NO_CODE.search(path)}
    kinds = causes(files["tools/spanprof/diagnosis/causes.py"])
    log = [files[RECORDER + name] for name in ("shared/record_kind.hpp", "shared/log_form.hpp", "LOG.md")]
    records = events(log[0])
    asked = [("command", "To add a command", files, words, len(words - PLAIN_ENGLISH) - 1),
             ("statement", "To add a statement or a clause of the text", code, marks, 2),
             ("cause", "To add a cause of the diagnosis", files, kinds, len(kinds) - 1),
             ("event", "To add an event of the log", code, records, len(records) * 3 // 4)]
    if arguments == ["--all"]:
        for what, _, texts, among, least in asked:
            print(*(f"{what}: {path}" for path in texts if len(named(among, texts[path])) >= least), sep="\n")
        return 0
    wrong = [line for what, heading, texts, among, least in asked
             for line in faults(what, list(listed(page, heading)), texts, among, least)]
    wrong += log_faults(*log)
    wrong += gone(page, paths_of(TOP))
    print(*wrong, f"{len(wrong)} wrong", sep="\n")
    return 1 if wrong else 0


if __name__ == "__main__":
    sys.exit(main(sys.argv[1:]))
