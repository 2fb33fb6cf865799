#!/usr/bin/env python3
"""Compares the reference implementation with the proved programs: bytes and exit statuses of every command, of
examples, random and damaged texts of both versions, texts near the limits, documents, and arguments that are refused.
Runs its own tests first, where there is cargo.

    checks/agree/reference.py [COUNT [SPANPROF [LARGE]]]     COUNT random texts of each version (60)

The programs are those in SPANPROF and SPANPROF_LARGE, or else those that CI has left.
"""
import os
import random
import re
import shutil
import subprocess
import sys
import tempfile
from concurrent.futures import ThreadPoolExecutor
from itertools import count as numbers
from pathlib import Path

import random_programs
import random_runs
from damaged import EVENTS, LOOPS, PLAIN, damaged
from random_logs import draw_document
from random_loops import draw_loops

TOP = Path(__file__).resolve().parents[2]
NAMES = "spanprof", "spanprof_large"
LEFT = {name: str(TOP / "crates" / name / "out" / name) for name in NAMES}
TEXT_COMMANDS = ("span", "show", "slack", "greedy --threads 3", "curve --upto 5", "whatif 0=7 2=0 1=3", "certify")
OF_SMALL = ("", "run --workers 2", *TEXT_COMMANDS)
OF_LARGE = ("", "--upto 9", "bounds --upto=1024", "graph", *TEXT_COMMANDS)
REFUSED = ("greedy --threads 0", "curve --upto 1025", "run --workers 65", "run --workers 0", "whatif 99999=1",
           "whatif 0=2000000000000000", "whatif 0=1000000000000000 1=1", "bounds --upto 0")
WORDS = (
    "shown", "Show", "show show", "help", "--help", "-h", "-V x", "span 1", "span -- 1", "-- span", "--", "span --",
    "--upto", "--upto=", "--upto 3 span", "--upto=3 --upto=3", "--upto 03 --", "greedy", "greedy 4", "greedy --upto 4",
    "greedy --threads=2", "greedy --threads 2 --threads 2", "curve --upto -1", "curve --upto +1", "curve --upto -- 1",
    "curve --upto 4294967296", "run --workers 002", "whatif", "whatif --", "whatif 1", "whatif 1=", "whatif =1",
    "whatif 1=2=3", "whatif 1=2 1", "whatif -- 1=2 0=3", "whatif 1=18446744073709551616", "whatif -1=2",
    "whatif --listed", "whatif --listed 1=2", "whatif 1=2 --listed", "whatif --listed --listed", "account --row",
    "account --rows --path", "account --rows=1", "account -- --rows", "graph --rows", "replay 1", "check --", "places",
    "places 1", "relaxation", "relaxation 1", "x")
CHANGES = (("taskwait", "taskgroup { }", 0.3), (r"if\(0\)", "", 0.3), (r"depend\(\w+: [\w, ]*\)", "", 0.3),
           ("inout:", "in:", 0.3), ("work [0-9]", "work 3", 0.02))   # pattern, what stands instead, how often
BYTES = b"\0\n #09aek}{[]+-:,)(\xff"
WORKED = "omptasks 1\nwork 5 task { work 3 } work 2 taskwait work 1\n"


class Wrong(Exception):
    pass


def ask(program, words, text):
    done = subprocess.run([program, *words], input=text, capture_output=True, check=False, timeout=300)
    return done.returncode, done.stdout, done.stderr


class Pair:
    """A program with the reference implementation of it."""

    def __init__(self, program, reference):
        self.program, self.reference = program, reference

    def compare(self, words, text):
        """What both answer; a list of words may have any of them."""
        words = words.split() if isinstance(words, str) else words
        text = text if isinstance(text, bytes) else text.encode()
        one, other = ask(self.program, words, text), ask(self.reference, words, text)
        if one != other:
            raise Wrong(f"{' '.join(map(str, words))} < {text[-300:]!r}:\n{one[0]} {one[1][-300:]}, and the reference "
                        f"implementation {other[0]} {other[1][-300:]} {other[2][-300:]}")
        return one[1].decode(errors="replace")


# ---- texts

def damaged_once(rng, text):
    """The text cut somewhere, or with another byte somewhere."""
    place = rng.randrange(len(text))
    return text[:place] + (bytes([rng.choice(BYTES)]) + text[place + 1:] if rng.random() < 0.7 else b"")


def near_limits():
    """Texts at a limit and one beyond it, of both versions."""
    def version_2(text):
        return "omptasks 2\n" + text

    for k in (0, 1):
        for each, most in (("task { }\n", 4_096), ("taskwait\n", 16_383), ("taskgroup { }\n", 16_383),
                           ("work 1000000000000\n", 1_000)):
            yield "omptasks 1\n" + each * (most + k)
            yield version_2(f"for i 1 {most + k} {{ {each} }}")
        yield "omptasks 1\n" + "task {\n" * (64 + k) + "}\n" * (64 + k)
        yield version_2("for i 1 1 { " * k + "taskgroup {\n" * 64 + "}\n" * (64 + k))
        yield f"omptasks 1 task depend(in: {', '.join('a' * (32 + k))}) {{ }}"
        yield version_2(f"task depend(in: {', '.join('a' * (32 + k))}) {{ }}")
        yield f"omptasks 1 task depend(in: {'x' * (31 + k)}) {{ work {10 ** 12 + k} }}"
        yield "#" * (4_194_304 - 11 + k) + "\nomptasks 1"
        yield "#" * (4_194_304 - 11 + k) + "\nomptasks 2"
        yield " " * (8_388_608 + k)
        yield "omptasks 1\n" + "work 1000000\n" * ((1_048_576 - 9) // 11) + "work " + "0" * (1 + k) + "\n"
        yield version_2(f"for i 1 {65_536 + k} {{ }}")
        yield version_2(f"for i 1 1000 {{ for j 1 {64 + k} {{ }} }} for i 1 536 {{ }}")
        yield version_2(f"for i 1 {74_897 // 2 + k} {{ work 1000000000 }}")
        yield version_2(f"for i 999999 {1_000_000 + k} {{ task depend(in: x[i], y[i-{1_000_000 + k}], z[-0]) {{ }} }}")
        yield version_2(f"for i 0 1 {{ task depend(in: x[i+{1_000_000 - 1 + k}]) {{ }} }}")


def made(name, tasks):
    done = subprocess.run([sys.executable, str(TOP / "bench/large_texts.py"), name, str(tasks)], capture_output=True,
                          check=True)
    return done.stdout


# ---- what is compared

def compare_text(small, large, text, seed):
    """Each command on a text; certificates, replays and lists of changes of it, right ones and others."""
    rng = random.Random(seed)
    for words in OF_SMALL:
        reported = small.compare(words, text)
    for words in OF_LARGE:
        large.compare(words, text)
    certificates = [reported] if "\n---\n" in reported else []
    certificates += [random_programs.with_another_number(reported, rng) for _ in range(3) if certificates]
    text = text.decode(errors="replace") if isinstance(text, bytes) else text
    segments = random_programs.segments_reported(small.compare("span", text))
    replays = [draw_document(rng, text, min(segments, 2_000)) for _ in range(2)]
    for pair in (small, large):
        for document in (*certificates, text, text + "---\n", f"{text}---\nend 0 chain 0"):
            pair.compare("check", document)
        for document in replays:
            pair.compare("replay", document)
    changes = "".join(f"{rng.randrange(segments + 1)}={rng.choice((0, 5, 10 ** 15))}\n" for _ in range(4))
    for rest in ("---\n" + changes, "---\r\n\n 0=1 \n", "---\n0=1 1=2", "---\n0=x", ""):
        large.compare("whatif --listed", text + rest)
    places = " ".join(str(rng.randrange(segments)) for _ in range(segments))
    for rest in (f"---\n{places}", f"---\r\n{places.replace(' ', chr(10))}\n\n", f"---\n{places} 0", "---\n0 x",
                 f"---\n{segments}", "---\n" + "0 " * segments, ""):
        large.compare("places", text + rest)
    compare_relaxations(large, text, rng)


def relaxed(rng, text):
    """The text with some things changed, most of which leave less to wait for."""
    for pattern, instead, share in CHANGES:
        text = re.sub(pattern, lambda found: instead if rng.random() < share else found[0], text)
    return text


def compare_relaxations(large, text, rng):
    """A text with changed ones, before them and behind them."""
    for _ in range(2):
        texts = [text, relaxed(rng, text)]
        for old, new in (texts, reversed(texts)):
            large.compare("relaxation", f"{old}\n---\n{new}")
    for rest in ("", "---", "---\n" + text[:-9], "---\r\nomptasks 1"):
        large.compare("relaxation", f"{text}\n{rest}")


def with_places(document):
    """A timed document with places of its segments in between."""
    text, _, times = document.partition("---\n")
    segments = max(1, sum(bool(line.split()) for line in times.split("\n")) - 1)
    return f"{text}---\n{' '.join(str(s * s % min(segments, 77)) for s in range(segments))}\n---\n{times}"


def compare_account(large, document):
    for words in ("account", "account --rows", "account --path"):
        large.compare(words, document)
    large.compare("places", with_places(document))


def compare_damaged(small, large, words, text):
    """A text, a certificate or a replay with damage at each byte."""
    for one in damaged(text):
        small.compare(words, one)
        large.compare(words, one)


def compare_words(small, large):
    for words in (*WORDS, *REFUSED):
        small.compare(words, WORKED)
        large.compare(words, WORKED)
        small.compare(words, "omptasks 1 }")
    for words in ([""], ["span", ""], ["whatif", ""], [b"\xff"], ["curve", b"--upto=\xff"], ["--upto", ""]):
        small.compare(words, WORKED)
        large.compare(words, WORKED)
    for version in ("-V", "--version"):
        if not ask(large.reference, [version], b"")[1].endswith(b"(reference implementation, not proved)\n"):
            raise Wrong("the reference implementation does not say that it is not proved")


def compare_large(large, tasks=20_000):
    """Texts beyond the limits of the commands."""
    for name in ("chain", "tree", "nested", "stencil", "groups", "colliding", "far_apart"):
        text = made(name, tasks)
        for words in ("span", "--upto 64", "slack", "greedy --threads 64", "graph", "curve --upto 3"):
            large.compare(words, text)
        compare_account(large, random_runs.as_a_run(text.decode(), large.compare("greedy --threads 3", text), 3))
        segments = random_programs.segments_reported(large.compare("span", text).split("\n", 1)[1])
        large.compare("places", text + b"---\n" + b"".join(b"%d\n" % (s * s % 77) for s in range(segments)))
        certificate = large.compare("certify", text)
        large.compare("check", certificate)
        large.compare("check", random_programs.with_another_number(certificate, random.Random(name)))
    large.compare("span", "omptasks 1\n" + "task {\n" * 1_048_577)
    large.compare("show", "omptasks 2\nfor i 1 300 { for j 1 300 { task depend(inout: x[j-1], x[j]) { work 3 } } }\n")


def cases(small, large, count):
    """Calls that compare."""
    examples = sorted((TOP / "examples").rglob("*.tasks"))
    yield compare_words, small, large
    yield compare_large, large
    certificate = small.compare("certify", WORKED).encode()
    for words, text in (("show", PLAIN), ("show", LOOPS), ("check", certificate),
                        ("replay", WORKED.encode() + b"---\n" + EVENTS)):
        yield compare_damaged, small, large, words, text
    for seed, path in zip(numbers(), examples):
        yield compare_text, small, large, path.read_bytes(), seed
    for text in near_limits():
        for words in ("span", "show"):
            yield small.compare, words, text
            yield large.compare, words, text
    for seed in range(count):
        for text in (random_programs.draw(seed), draw_loops(seed)):
            yield compare_text, small, large, text, seed
            rng = random.Random(text)
            for _ in range(3):
                other = damaged_once(rng, text.encode())
                yield small.compare, rng.choice(("span", "show")), other
                yield large.compare, rng.choice(("span", "show", "slack")), other
    for seed in range(2 * count):
        yield compare_account, large, random_runs.draw_case(seed) + "\n" * (seed % 2)


def build(folder):
    """The reference implementation, in a folder; its own tests too, where there is cargo."""
    subprocess.run([str(TOP / "reference/build.sh"), folder], check=True)
    if shutil.which("cargo"):
        environment = dict(os.environ, CARGO_TARGET_DIR=os.path.join(folder, "target"))
        subprocess.run(["cargo", "test", "--quiet", "--offline", "--manifest-path", str(TOP / "reference/Cargo.toml")],
                       check=True, env=environment, stdout=subprocess.DEVNULL)


def main(words):
    count = int(words[0]) if words else 60
    given = [*words[1:], *(os.environ.get(name.upper()) or LEFT[name] for name in NAMES[len(words[1:]):])]
    if not shutil.which("rustc"):
        print("skipped: rustc is missing (package rustc)")
        return 0
    if not all(os.access(program, os.X_OK) for program in given):
        print("no program " + " or ".join(given))
        return 1
    with tempfile.TemporaryDirectory() as folder:
        build(folder)
        pairs = [Pair(os.path.abspath(program), os.path.join(folder, name)) for program, name in zip(given, NAMES)]
        with ThreadPoolExecutor(len(os.sched_getaffinity(0))) as pool:
            asked = [pool.submit(*case) for case in cases(*pairs, count)]
            wrong = [str(one.exception()) for one in asked if one.exception()]
    print("\n".join(wrong[:20] + [f"{len(asked)} comparisons, {len(wrong)} wrong"]))
    return bool(wrong)


if __name__ == "__main__":
    sys.exit(main(sys.argv[1:]))
