"""Processor time, wall time and memory of programs that read a text and print."""
import os
import subprocess
import tempfile
import time

RUNS = int(os.environ.get("RUNS", "5"))
LONG = 5000  # milliseconds: what takes so long runs once
TIMEOUT = 60  # seconds


class TooSlow(Exception):
    pass


def run(words, path):
    """The status and what is printed, the processor time and the wall time in milliseconds."""
    began = time.monotonic()
    with open(path, "rb") as text, tempfile.TemporaryFile() as printed:
        process = subprocess.Popen(words, stdin=text, stdout=printed, stderr=subprocess.DEVNULL)
        while True:
            ended, status, usage = os.wait4(process.pid, os.WNOHANG)
            if ended:
                break
            if time.monotonic() - began > TIMEOUT:
                process.kill()
                process.wait()
                raise TooSlow
            time.sleep(0.0005)
        process.returncode = os.waitstatus_to_exitcode(status)
        wall = time.monotonic() - began
        printed.seek(0)
        return (process.returncode, printed.read()), 1000 * (usage.ru_utime + usage.ru_stime), 1000 * wall


def peak(words, path):
    """The peak of memory in MiB."""
    with open(path, "rb") as text:
        reported = subprocess.run(["/usr/bin/time", "-f", "%M", *words], stdin=text, stdout=subprocess.DEVNULL,
                                  stderr=subprocess.PIPE, check=False)
    return int(reported.stderr.split()[-1]) / 1024


def best_in_turns(asked, path, column):
    """For each list of words what it printed and the least of its times, or nothing where a run took too long. They run
    in turns, so that a slow minute of the machine meets them all. Column 0 is the processor's time, 1 the wall's."""
    reported, least, going = [None] * len(asked), [float("inf")] * len(asked), set(range(len(asked)))
    for _ in range(RUNS):
        for number in sorted(going):
            try:
                reported[number], *times = run(asked[number], path)
            except TooSlow:
                reported[number], least[number] = None, float("inf")
                going.remove(number)
                continue
            least[number] = min(least[number], times[column])
            if least[number] >= LONG:
                going.remove(number)
    return list(zip(reported, least))


def best(words, path, column):
    """What the words printed, and the least of their times."""
    reported, least = best_in_turns([words], path, column)[0]
    if reported is None:
        raise TooSlow
    return reported, least
