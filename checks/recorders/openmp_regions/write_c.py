"""Writes a program as C that is C++ too, each directive on a line of its own."""
from program import Work

LOCATIONS = 6

HEAD = """\
#include <omp.h>
#include <stdio.h>
#include <stdlib.h>
#include <time.h>

static char location[%d];
static int sum;
static volatile int mark;
static int works_done;

static long long nanoseconds(clockid_t clock) {
    struct timespec t;
    clock_gettime(clock, &t);
    return t.tv_sec * 1000000000LL + t.tv_nsec;
}

// The processor's clock goes on while the recorder takes a sample, which is no cost of the program: so no step from one
// reading to the next counts for more than the shortest one.
static long long shortest = 1000;

static void find_shortest(void) {
    long long last = nanoseconds(CLOCK_THREAD_CPUTIME_ID), now;
    for (int i = 0; i < 1000; i++, last = now) {
        now = nanoseconds(CLOCK_THREAD_CPUTIME_ID);
        if (now - last > 0 && now - last < shortest) shortest = now - last;
    }
}

static void __attribute__((noinline)) work(int microseconds) {
    long long last = nanoseconds(CLOCK_THREAD_CPUTIME_ID), spent = 0, now;
    for (; spent < microseconds * 1000LL; last = now) {
        now = nanoseconds(CLOCK_THREAD_CPUTIME_ID);
        spent += now - last < shortest ? now - last : shortest;
    }
    __atomic_fetch_add(&works_done, 1, __ATOMIC_RELAXED);
}

int main(int argc, char **argv) {
    int threads = argc > 1 ? atoi(argv[1]) : 2;
    (void)location, (void)sum, (void)mark;
    find_shortest();
""" % LOCATIONS

TAIL = """\
    printf("%lld %d\\n", nanoseconds(CLOCK_PROCESS_CPUTIME_ID), works_done);
    return 0;
}
"""


class Writer:
    def __init__(self):
        self.lines = HEAD.split("\n")[:-1]
        self.loops = 0

    def put(self, indent, words):
        self.lines.append("    " * indent + words)

    def directive(self, indent, statement, words):
        """gcc gives most calls for a directive the line of the statement before it, so one stands on the same line."""
        self.put(indent, 'mark = %d; _Pragma("omp %s")' % (len(self.lines) + 1, words))
        statement.line = len(self.lines)

    def block(self, indent, body):
        self.put(indent, "{")
        self.statements(indent + 1, body or [Work(0)])  # gcc drops an empty task
        self.put(indent, "}")

    def statements(self, indent, body):
        for statement in body:
            getattr(self, "write_" + type(statement).__name__.lower())(indent, statement)

    def write_work(self, indent, work):
        if work.locked:
            self.lines.append("#pragma omp critical(lock)")
        self.put(indent, "work(%d);" % work.microseconds)

    def write_task(self, indent, task):
        clauses = ["if(0)"] * task.undeferred + ["final(1)"] * task.final
        clauses += ["untied"] * task.untied + ["mergeable"] * task.mergeable
        self.directive(indent, task, " ".join(["task"] + clauses + depend_clauses(task.depend)))
        self.block(indent, task.body)

    def write_taskwait(self, indent, wait):
        self.directive(indent, wait, " ".join(["taskwait"] + depend_clauses(wait.depend)))

    def write_taskgroup(self, indent, group):
        self.directive(indent, group, "taskgroup" + (" task_reduction(+: sum)" if group.reduces else ""))
        self.block(indent, group.body)

    def write_taskloop(self, indent, loop):
        clauses = ["num_tasks(%d)" % loop.tasks] + ["nogroup"] * loop.nogroup
        clauses += ["if(0)"] * loop.undeferred + ["final(1)"] * loop.final
        self.directive(indent, loop, " ".join(["taskloop"] + clauses))
        self.loop(indent, loop.tasks, loop.body)

    def write_repeat(self, indent, repeat):
        self.loop(indent, repeat.times, repeat.body)

    def loop(self, indent, times, body):
        self.loops += 1
        name = "i%d" % self.loops
        self.put(indent, "for (int %s = 0; %s < %d; %s++) {" % (name, name, times, name))
        self.statements(indent + 1, body)
        self.put(indent, "}")

    def write_yield(self, indent, _):
        self.lines.append("#pragma omp taskyield")

    def write_region(self, indent, region):
        threads = "threads" if region.threads is None else str(region.threads)
        self.directive(indent, region, "parallel num_threads(%s)" % threads)
        self.block(indent, region.body)

    def write_all(self, indent, part):
        self.statements(indent, part.body)

    def write_single(self, indent, single):
        self.lines.append("#pragma omp single" + " nowait" * single.nowait)
        self.block(indent, single.body)

    def write_master(self, indent, master):
        self.lines.append("#pragma omp master")
        self.block(indent, master.body)

    def write_sections(self, indent, sections):
        self.lines.append("#pragma omp sections" + " nowait" * sections.nowait)
        self.put(indent, "{")
        for body in sections.bodies:
            self.lines.append("#pragma omp section")
            self.block(indent + 1, body)
        self.put(indent, "}")

    def write_for(self, indent, loop):
        self.lines.append("#pragma omp for schedule(%s)" % loop.schedule + " nowait" * loop.nowait)
        self.loop(indent, loop.turns, loop.body)

    def write_barrier(self, indent, _):
        self.lines.append("#pragma omp barrier")


def depend_clauses(depend):
    return ["depend(%s: location[%d])" % item for item in depend]


def write_c(statements):
    """The text of a program; sets the line of each statement that is a directive."""
    writer = Writer()
    writer.statements(1, statements)
    return "\n".join(writer.lines) + "\n" + TAIL
