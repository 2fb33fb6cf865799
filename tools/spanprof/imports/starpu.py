"""The file tasks.rec that starpu_fxt_tool makes of a trace of StarPU: tasks, their times, and which depend on which."""
import re

from spanprof.command import Fault
from spanprof.imports.tasks import Imported, Task, timed

MILLISECOND = 10 ** 6


def records(path):
    """Of each task the line on which it begins, and its fields with their lines. An empty line ends one."""
    found, first = {}, 0
    with open(path, encoding="utf-8", errors="replace") as file:
        for number, line in enumerate(file, 1):
            name, colon, value = line.strip().partition(":")
            if not name and found:
                yield first, found
                found = {}
            elif name and not colon:
                raise Fault("%s:%d: `%s` is no field, such as `JobId: 5`" % (path, number, name[:40]))
            elif name:
                first = first if found else number
                found[name] = value.strip(), number
    if found:
        yield first, found


def nanoseconds(path, field):
    value, number = field
    if not re.fullmatch(r"-?[0-9]+(\.[0-9]+)?", value):
        raise Fault("%s:%d: `%s` is no time" % (path, number, value[:40]))
    return round(float(value) * MILLISECOND)


def task_of(path, first, fields):
    """One that did not run has no code: it joins others, or acquires data."""
    at, name = "%s:%d" % (path, first), fields.get("Name", fields.get("Model", ("a task", 0)))[0]
    if "StartTime" not in fields or "EndTime" not in fields:
        return Task(name, at)
    begin, end = (nanoseconds(path, fields[which]) for which in ("StartTime", "EndTime"))
    rank, worker = (fields.get(which, ("", 0))[0] for which in ("MPIRank", "WorkerId"))
    return timed(at, name, begin, end, (rank, worker) if worker else None)


def set_before(path, tasks, fields, numbers):
    for task, its in zip(tasks, fields):
        jobs, line = its.get("DependsOn", ("", 0))
        for job in jobs.split():
            if job not in numbers:
                raise Fault("%s:%d: %s depends on job %s, which is not in the file" % (path, line, task.name, job))
            task.before.append(numbers[job])


def read(path, _=None):
    found = [(first, fields) for first, fields in records(path) if "Control" not in fields]
    numbers = {}
    for at, (first, fields) in enumerate(found):
        if "JobId" not in fields:
            raise Fault("%s:%d: a task without a JobId" % (path, first))
        if numbers.setdefault(fields["JobId"][0], at) != at:
            raise Fault("%s:%d: a second task with the JobId %s" % (path, fields["JobId"][1], fields["JobId"][0]))
    tasks = [task_of(path, first, fields) for first, fields in found]
    set_before(path, tasks, [fields for _, fields in found], numbers)
    return Imported("StarPU", tasks)
