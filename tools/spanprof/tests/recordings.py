"""Recordings that the tests make up."""
import hashlib
import json
import os

TEXT = '# recorded: {"program": "mine", "date": "2026-11-29T00:10:02Z", "threads": 2, "clock": "wall", ' \
    '"unit": "us"}\n# whole program: {"regions": 1}\n# elapsed: 40\n# covers: {"text": 95, "program": 100}\n' \
    "omptasks 1\ntask {  # mine.c:9\n  work 5\n}\nwork 4\n"
TIMES = "times 2 0 40000\n0 0 0 1000\n1 1 1000 6000\n2 0 1000 5000\n"
REGIONS = "number,text,begin_ns,end_ns,threads,tasks,loops,code_ns,inside,place\n" \
    "0,0,0,100,1,0,0,60,0,\n1,0,60,100,4,9,0,90,0,mine.c:9\n"


def write(path, words):
    os.makedirs(os.path.dirname(path), exist_ok=True)
    with open(path, "w", encoding="utf-8") as file:
        file.write(words)
    return path


def recording(folder, name="mine", schema=1, facts=(), **files):
    """A whole one; other files of it may have other words, or none where that is None. `facts` are of its run."""
    path = os.path.join(folder, name + ".spanprof")
    words = {"program.tasks": TEXT, "times": TIMES, "regions": REGIONS, **files}
    words = {file: text for file, text in words.items() if text is not None}
    for file, text in words.items():
        write(os.path.join(path, file), text)
    write(os.path.join(path, "log", "head"), "")
    sums = {file: hashlib.sha256(text.encode()).hexdigest() for file, text in words.items()}
    reported = {"schema": schema, "unit": "us", "files": sums, **dict(facts)}
    write(os.path.join(path, "recording.json"), json.dumps(reported))
    return path
