#!/usr/bin/env python3
"""Records the programs of this folder one by one: cases.py [NAME ..].

What each must leave stands at its head (case.py). SPANPROF and SPANPROF_LARGE name the programs, RECORDER the
recorder's library, LLVM_VERSIONS those of LLVM (19,16). Without spanprof_large no times are tried. Status 1: something
was wrong.
"""
import glob
import os
import shutil
import subprocess
import sys
import tempfile

from case import (Left, count_tasks, first_faults, is_counted, is_of_gcc, is_preloaded, last_faults, needed_version,
                  numbers_of_head, only_on, wants)

HERE = os.path.dirname(os.path.abspath(__file__))
TOP = os.path.dirname(os.path.dirname(os.path.dirname(HERE)))
sys.path += [os.path.join(TOP, "checks", "llvm"), os.path.join(TOP, "tools")]
from recording import RECORDER, counted_clock, names_of, remove, texts  # noqa: E402
from spanprof.remarks import in_words  # noqa: E402
from versions import asked  # noqa: E402

SPANPROF = os.environ.get("SPANPROF", os.path.join(TOP, "crates/spanprof/out/spanprof"))
SPANPROF_LARGE = os.environ.get("SPANPROF_LARGE", os.path.join(TOP, "crates/spanprof_large/out/spanprof_large"))
JUDGES = {".timed": [SPANPROF_LARGE, "account"]}
SPAN = [SPANPROF_LARGE] if os.access(SPANPROF_LARGE, os.X_OK) else [SPANPROF, "span"]
SECONDS = 120  # for one run
OF_MEASURED = 3  # tries, where a case compares measured times
TRIED = "19,16"
GNU = None  # in the place of a version of LLVM: gcc's runtime


def read_wants(source):
    with open(source, encoding="utf-8") as file:
        return wants(file.read())


def build(source, program, by_gcc, version):
    compiler = ["gcc"] if by_gcc else version.compiler()
    level = "-Og" if version is GNU and not is_of_gcc(read_wants(source)) else "-O2"  # gcc's lines are right by -Og
    subprocess.run(compiler + [level, "-g", "-fopenmp", source, "-o", program, "-lm"], check=True)


def judged(words, text):
    return subprocess.run(words, input=text, capture_output=True, text=True, check=False)


def numbers_of(files):
    """Work, span and more of the texts, as spanprof tells them."""
    out = numbers_of_head(files.get("out.tasks", ""))
    if "out.tasks" in files:
        reported = dict(line.split() for line in judged(SPAN, files["out.tasks"]).stdout.split("\n") if line)
        out.update({what: int(number) for what, number in reported.items()})
        out["tasks"] = count_tasks(files["out.tasks"])
        out["parallelism"] = out["work"] / max(out["span"], 1)
    return out


def refused_runs(files):
    for name, text in sorted(files.items()):
        words = JUDGES.get(os.path.splitext(name)[1])
        if words and os.access(words[0], os.X_OK):
            done = judged(words, text)
            if done.returncode:
                yield "%s: %s" % (name, done.stdout.strip() or done.stderr.strip())


def run(words, folder, settings):
    ours = {"OMP_NUM_THREADS": "4", "OMP_TOOL_LIBRARIES": RECORDER, "SPANPROF_OUT": os.path.join(folder, "out"),
            "SPANPROF_TIMES": "1"}
    environment = {**os.environ, **ours, **settings}
    done = subprocess.run(words, env=environment, capture_output=True, text=True, timeout=SECONDS)
    said = done.stderr + converted(folder, environment)
    files = {}
    for path in filter(os.path.isfile, glob.glob(os.path.join(folder, "out*"))):
        if not path.endswith(".segments"):      # which is no text
            with open(path, encoding="utf-8") as file:
                files[os.path.basename(path)] = in_words(file.read())
    if files.get("out.times", "").startswith("times "):     # of the whole program they stand alone
        files["out.timed"] = files["out.tasks"] + "---\n" + files["out.times"]
    return Left(done.returncode, said, files, numbers_of(files), list(refused_runs(files)))


def converted(folder, environment):
    """What the converter says of the run's logs, the program's own first. They are taken away then."""
    out = os.path.join(folder, "out")
    said, _ = texts(out, {name: value for name, value in environment.items() if name.startswith("SPANPROF_")})
    for name in names_of(out):
        shutil.rmtree(name + ".spanprof")
    return said


def preloaded(wanted, version, folder):
    """What stands in place of the libraries that the program was linked with, or before them."""
    out = [RECORDER] if version is GNU or is_preloaded(wanted) else []
    if version is not GNU and is_of_gcc(wanted):
        out.append(version.runtime)
    if is_counted(wanted):
        out.append(counted_clock(folder))
    return out


def faults_of(wanted, program, folder, version):
    for name in " ".join(wanted["old"]).split():
        with open(os.path.join(folder, name), "w", encoding="utf-8") as file:
            file.write("of an earlier run\n")
    settings = {"LD_PRELOAD": ":".join(preloaded(wanted, version, folder))}
    settings.update({"SPANPROF_CLOCK": "cpu"} if is_counted(wanted) else {})
    settings.update(words.split("=", 1) for words in wanted["env"])
    left = run([program], folder, settings)
    out = list(first_faults(wanted, left))
    for words in wanted["again"]:
        remove(os.path.join(folder, "out"))
        left = run([program], folder, dict(settings, **dict([words.split("=", 1)])))
    return out + list(last_faults(wanted, left))


def faults_of_all_tries(wanted, program, folder, version):
    """What is wrong with the last try, and nothing where one was right. Only measured times have more than one."""
    tries, faults = OF_MEASURED if wanted["measured"] else 1, []
    for number in range(tries):
        if faults:
            print("again %s: %s" % (os.path.basename(program), "; ".join(faults)), flush=True)
        ours = os.path.join(folder, str(number))
        os.mkdir(ours)
        faults = faults_of(wanted, program, ours, version)
        if not faults:
            break
    return faults


def why_left_out(wanted, version):
    if only_on(wanted) not in ("", "gnu" if version is GNU else "llvm"):
        return "it is of another runtime"
    if version is GNU:
        return ""
    return "it needs %s" % wanted["needs"][0] if int(version.number) < needed_version(wanted) else ""


def judge(source, version):
    """What is wrong with a case, after its name is reported."""
    wanted = read_wants(source)
    name = os.path.basename(source)[:-2]
    why = why_left_out(wanted, version)
    print("%s: left out, %s" % (name, why) if why else name, flush=True)
    if why:
        return []
    with tempfile.TemporaryDirectory() as folder:
        program = os.path.join(folder, os.path.basename(source)[:-2])
        build(source, program, version is GNU or is_of_gcc(wanted), version)
        return faults_of_all_tries(wanted, program, folder, version)


def main(names):
    sources = [os.path.join(HERE, name + ".c") for name in names] or sorted(glob.glob(os.path.join(HERE, "*.c")))
    wrong = []
    versions = asked(os.environ.get("LLVM_VERSIONS", TRIED)) or asked("")[:1]
    for version in versions + [GNU]:
        runtime = "gcc's runtime" if version is GNU else "LLVM " + version.number
        print(runtime, flush=True)
        for source in sources:
            of = "%s, %s: " % (runtime, os.path.basename(source))
            wrong += [of + fault for fault in judge(source, version)]
    print("\n".join(wrong + ["%d faults" % len(wrong)]))
    return 1 if wrong else 0


if __name__ == "__main__":
    sys.exit(main(sys.argv[1:]))
