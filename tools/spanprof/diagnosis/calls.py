"""The functions that code ran, by samples of the calls on its threads' stacks, and their names as people know them:
what of it allocated and freed memory, took locks of the system, such as a std::mutex, beyond the waits for them, and
was in the kernel, for page faults and in system calls; and what of serial code is the program's own, which its
programmer can divide: an interpreter is not, nor are libraries that it loads without lines.
"""
import re
from collections import Counter, defaultdict
from functools import lru_cache
from typing import NamedTuple

from spanprof.command import reading
from spanprof.diagnosis.places import ALLOCATION, SERIAL
from spanprof.head import lasting
from spanprof.program_text import BEGINNING, CREATING

LEAST = 5           # samples, below which they say nothing
A_SAMPLE = 4000     # microseconds
IN_CALLS = "ran", "slept"
SHARES = (0.8, 0.5, 0.3)    # of the samples that a function has to have, tried one after the other
OF_SYSTEM = "@"     # behind a function of the system's libraries
NO_NAME = "["       # before the name of a file, which stands for a function that has no symbol
RUNTIME = "runtime@OpenMP"
# Functions of the C library that let in one thread at a time, and what does without.
ONE_AT_A_TIME = {
    "pthread_spin_lock": "hold it for less, or a copy for each thread",
    **dict.fromkeys(("rand", "random", "srand", "srandom"), "a generator for each thread, such as rand_r"),
    **dict.fromkeys(("printf", "vprintf", "puts", "putchar"), "a buffer for each thread, printed at its end"),
    **dict.fromkeys(("localtime", "localtime_r", "mktime", "strftime"), "call it once for many")}
OUTERMOST = ("main", "_start", "unnamed")    # the last is code that a compiler made of a construct
OF_MPI = re.compile("P?MPI_(?!Init)")
MPI_BEGINS = re.compile("P?MPI_Init")
AT_START = "the start"      # in the place of code's name, of what slept then
# The system's loader, and constructors of static objects.
BEFORE_MAIN = re.compile(r"_GLOBAL__(sub_)?I_|__cxx_global_var_init|[^;]*@ld-linux")
# Where only this is on the stack: what calls the program's first function.
CALLS_MAIN = re.compile(r"_*(libc_)?start(_call)?(_main)?(_impl)?@")
OF_COMPILERS = re.compile(r"(\.omp_outlined|\._omp_fn|\.part\.|\.constprop\.|\.isra\.|\.cold|\.lto_priv| \[clone ).*$")
ARGUMENTS = re.compile(r"(?<!operator)(?<!^)\(.*$")
OFFSET = re.compile(r"\+0x[0-9a-f]+$")
FORTRAN = re.compile(r"__(\w+?)_MOD_(\w+)$")
FLANG = re.compile(r"^_Q(?:Q|(?:M([a-z0-9_]+))?(?:F[a-z0-9_]*)?P)([a-z0-9_]+).*$")
ABI = re.compile(r"\[abi:\w+\]")
MAIN_PROGRAM = "MAIN__"     # gfortran's name of a main program
FREE = re.compile(r"(\w+_)?c?free$|operator delete")
# The file of a program, or of a library as samples have it.
INTERPRETER = re.compile(r"(R|(python|octave-cli|octave-gui|perl|ruby|guile|lua)[-.\d]*|"
                         r"lib(python|R|oct(ave|interp)|perl|ruby|guile|lua)[-.\d]*\.so.*)$")
IN_PLACE = "the interpreter ("      # in place of a place of code
MOST_OF_SERIAL = 0.5      # of the samples of serial code, from which on a program of another name is an interpreter
OF_SYSTEM_LOCKS = ("mutex", "rwlock")
LOCKING = re.compile(r"pthread_(mutex|rwlock)_\w+$")
NO_SYMBOL = "libc.so.6"     # functions of the C library without one, in which the kernel is asked to wake others
# Functions of the C library that do little but call the kernel.
CALLING = re.compile(
    r"(libc_)?(p?(read|write)v?2?|v?open(at)?2?|creat|close|l?seek|[lf]?stat(at|x)?|readlink|unlink|rename|access|"
    r"fsync|fdatasync|f?truncate|ioctl|fcntl|dup[23]?|pipe2?|send(to|msg|file)?|recv(from|msg)?|select|poll|epoll_\w+|"
    r"mmap|munmap|mremap|madvise|mprotect|s?brk|getrandom|getdents|sched_yield|getrusage|syscall)(64)?$")
MAPPING = ("mmap", "munmap", "mremap", "madvise", "brk", "sbrk")
A_FAULT, A_PAGE = 4000, 4096    # nanoseconds, with the page that it clears, of so many bytes
MUCH_SYSTEM = 0.25      # of the processor time, from which on time in the kernel is a loss


class Ran(NamedTuple):
    """The innermost function in which code spent most of its time, and what called it, if it is known."""
    function: str
    caller: str
    share: float


class Sampled(NamedTuple):
    """By place: the microseconds of each list of calls, outermost first, in which code ran, or slept; of each line at
    which it used memory that other threads used at the same time, where one of them wrote it; of each that ran; of each
    that allocated memory or freed it, with its function; of each with a loop that only waits for another thread; and of
    each in a loop that goes on by a cache line or more from element to element, and of that loop."""
    ran: dict
    slept: dict
    shares: dict = {}
    at: dict = {}
    allocated: dict = {}
    spins: dict = {}
    strides: dict = {}
    loops: dict = {}


@lru_cache(maxsize=4096)
def plain(function):
    """As a person knows it: with its class or namespace, and without its type, arguments, those of templates, what a
    compiler adds, and an offset."""
    function = ABI.sub("", OFFSET.sub("", function)).replace(MAIN_PROGRAM, "main")
    function = FLANG.sub(lambda found: "::".join(filter(None, found.groups())), function)
    function = FORTRAN.sub(r"\1::\2", function).replace("(anonymous namespace)::", "").replace("<..>", "")
    function = ARGUMENTS.sub("", OF_COMPILERS.sub("", function))
    before, operator, rest = function.partition("operator ")
    name = before.rpartition(" ")[2] + operator + rest.strip()
    return "::".join(name.split("::")[-2:]) or function


def is_of_ranks(calls):
    """Whether they end with a call of MPI but for its beginning: it waits for other ranks, mostly without sleeping."""
    return OF_MPI.match(calls[-1]) is not None


def is_start(calls):
    """Whether they are of the program's start, which no change divides: before its first function, or of MPI's."""
    is_before = BEFORE_MAIN.match(calls[0]) or len(calls) == 1 and CALLS_MAIN.match(calls[0])
    return bool(is_before or MPI_BEGINS.match(calls[-1]))


def samples_in(path):
    """A line of the file has a segment, what it did, microseconds, and in which calls, or at which line:
    `12 ran 8000 main;sort;compare`."""
    if path:
        with reading(path), open(path, encoding="utf-8", errors="replace") as lines:
            for line in lines:
                number, did, time, calls = line.rstrip("\n").split(" ", 3)
                if did not in Sampled._fields:
                    raise ValueError("a thread neither ran nor slept: " + did)
                yield int(number), did, int(time), known(calls) if did in IN_CALLS else calls


def calls_of(path, kinds, names):
    """By the places of segments, whose `kinds` have these names."""
    found = Sampled(*(defaultdict(Counter) for _ in Sampled._fields))
    for number, did, time, calls in samples_in(path):
        if 0 <= number < len(kinds):
            getattr(found, did)[names[kinds[number]]][calls] += time
    return Sampled(*map(dict, found))


@lru_cache(maxsize=4096)
def known(calls):
    """Those of the system with their library's name, or that of headers."""
    return tuple(plain(name) + at + library for name, at, library in (one.partition(OF_SYSTEM)
                                                                      for one in calls.split(";")))


def is_of_program(function):
    """Whether a person looks for time there: in no function of the system or without a name, nor in the outermost."""
    return function not in OUTERMOST and OF_SYSTEM not in function and not function.startswith(NO_NAME)


def caller_of(calls, at):
    """The next function outwards that has a name."""
    return next((name for name in calls[:at][::-1] if not name.startswith(NO_NAME)), "")


def innermost(sampled):
    """None where there are too few samples, or no function has enough of them."""
    whole = sum(sampled.values())
    if whole < LEAST * A_SAMPLE:
        return None
    having, depths, callers = Counter(), Counter(), defaultdict(Counter)
    for calls, time in sampled.items():
        for function in set(calls):
            at = len(calls) - 1 - calls[::-1].index(function)
            having[function] += time
            depths[function] += time * (len(calls) - at)
            callers[function][caller_of(calls, at)] += time
    for share in SHARES:
        enough = [name for name, time in having.items() if time >= share * whole and is_of_program(name)]
        if enough:
            function = min(enough, key=lambda name: (depths[name] / having[name], name))
            caller = max(callers[function], key=lambda name: (callers[function][name], name))
            return Ran(function, caller.partition(OF_SYSTEM)[0], having[function] / whole)
    return None


def in_system(calls):
    """The function of the system that the last call is, without its library."""
    return calls[-1].partition(OF_SYSTEM)[0] if OF_SYSTEM in calls[-1] else ""


def shares(sampled, name_of):
    """Of the samples, by what a function says of their calls; nothing where there are too few."""
    whole, found = sum(sampled.values()), Counter()
    for calls, time in sampled.items():
        found[name_of(calls)] += time
    return {name: time / whole for name, time in found.items()} if whole >= LEAST * A_SAMPLE else {}


def together(found, places):
    """The samples of several places."""
    out = Counter()
    for place in places:
        out.update(found.get(place, {}))
    return out


def parallel_places(facts):
    return [place for place in facts.places.values() if place.kind != SERIAL]


def parallel_code(facts):
    return sum(place.cost for place in parallel_places(facts))


def of_freeing(sampled):
    """The functions that do little but free memory: where nothing is allocated nothing calls them."""
    ran, freed = Counter(), Counter()
    for calls, time in sampled.items():
        for function in set(calls).difference(OUTERMOST):
            ran[function] += time
            freed[function] += time * bool(FREE.match(in_system(calls)))
    return {function for function, time in freed.items() if 2 * time > ran[function]}


def around_freeing(sampled, functions):
    """What they took themselves, in microseconds."""
    return sum(time for calls, time in sampled.items()
               if not functions.isdisjoint(calls) and not FREE.match(in_system(calls)))


def allocating(facts):
    """By line; what functions that do little but free took is that of the lines of the same code."""
    functions = of_freeing(together(facts.calls.ran, [place.name for place in parallel_places(facts)]))
    out = Counter()
    for place in parallel_places(facts):
        lines, ran = (found.get(place.name, {}) for found in (facts.calls.allocated, facts.calls.ran))
        sampled, allocated = sum(ran.values()), sum(lines.values())
        code = max(0, place.cost - facts.asleep_by.get(place.name, 0))
        for line, time in lines.items() if sampled and allocated else ():
            share = time * (allocated + around_freeing(ran, functions)) / (allocated * sampled)
            out[ALLOCATION + line.partition(" ")[0]] += int(code * share)
    return out


def most_allocating(facts):
    """The line that takes most; empty where none is known."""
    found = allocating(facts)
    return max(filter(ALLOCATION.__ne__, found), key=found.get, default="")


def is_called(name):
    """Whether it is a function of neither an interpreter nor the system."""
    return OF_SYSTEM not in name and name not in OUTERMOST


def file_that_ran(calls):
    """Of an interpreter, where it called nothing but the system; empty for other code."""
    files = (name.partition(OF_SYSTEM)[2] for name in calls if not any(map(is_called, calls)))
    return next(filter(INTERPRETER.match, files), "")


def is_loading(calls):
    """Whether they are of the program's start, or an interpreter's own code, which sleeps where it first reads a
    file."""
    return is_start(calls) or bool(INTERPRETER.match(calls[-1].partition(OF_SYSTEM)[2]))


def serial_places(facts):
    return [place for place in facts.places.values() if place.kind == SERIAL]


def interpreter_of(facts):
    """The file of the interpreter that runs the program; empty where none does."""
    if INTERPRETER.match(facts.program):
        return facts.program
    found = shares(together(facts.calls.ran, [place.name for place in serial_places(facts)]), file_that_ran)
    return next((file for file, share in found.items() if file and share >= MOST_OF_SERIAL), "")


def is_interpreted(facts, place):
    return bool(facts.interpreter and place) and place.kind == SERIAL


def called_code(facts, place):
    """The samples of a place, of serial code in an interpreter those of the libraries that it called."""
    ran = facts.calls.ran.get(place.name, {})
    if not is_interpreted(facts, place):
        return ran
    return {calls: time for calls, time in ran.items() if any(map(is_called, calls))}


def share_of_samples(facts, place, some):
    """Of serial code in an interpreter. What too few samples have seen is of its start, or between two calls."""
    whole = sum(facts.calls.ran.get(place.name, {}).values())
    return min(1.0, sum(some.values()) / whole) if whole >= LEAST * A_SAMPLE else 0.0


def interpreted_share(facts, name):
    """Of the code at a place."""
    place = facts.places.get(name)
    return 1 - share_of_samples(facts, place, called_code(facts, place)) if is_interpreted(facts, place) else 0.0


def own_share(facts, name):
    """Of the code at a place: in an interpreter what is in libraries with lines, as their programmers have them."""
    place = facts.places.get(name)
    return share_of_samples(facts, place, facts.calls.at.get(name, {})) if is_interpreted(facts, place) else 1.0


def interpreted_time(facts):
    """Nanoseconds of serial code."""
    return int(sum(place.cost * interpreted_share(facts, place.name) for place in serial_places(facts)))


def is_interpreter(name):
    return name.startswith(IN_PLACE)


def of_interpreter(facts, found):
    """Losses, those to serial code while an interpreter ran by its name."""
    out = []
    for loss in found:
        part = int(loss.time * interpreted_share(facts, loss.place)) if loss.kind == "serial" else 0
        out += [loss._replace(time=loss.time - part)]
        out += [loss._replace(place="%s%s)" % (IN_PLACE, facts.interpreter), time=part)] * bool(part)
    return out


def words_of_interpreter(facts):
    """How much of all serial code it is."""
    whole = sum(place.cost for place in serial_places(facts))
    return "%.0f %% of %s of serial code" % (100 * interpreted_time(facts) / max(whole, 1), lasting(whole))


def lock_of_switches(facts):
    """The lock of the system that threads wait for longest, where most switches of threads can be waits for such locks;
    None where there is none."""
    held = [lock for lock in facts.locks if lock.kind in OF_SYSTEM_LOCKS]
    switches = (facts.usage or {}).get("voluntary_switches") or 0
    waits = 2 * sum(lock.times for lock in held)
    return max(held, key=lambda lock: lock.waited, default=None) if waits >= switches else None


def unnamed_share(facts):
    """Of samples in functions of the C library without a symbol those that time in the kernel explains."""
    unnamed = sum(time for ran in facts.calls.ran.values() for calls, time in ran.items()
                  if in_system(calls) == NO_SYMBOL)
    return min(1, ((facts.usage or {}).get("system_ns") or 0) / (1000 * unnamed)) if unnamed else 0


def system_locking(facts):
    """By place of code, what it spends on locks of the system."""
    out, unnamed = {}, unnamed_share(facts)
    for name, ran in facts.calls.ran.items():
        called = shares(ran, in_system)
        share = sum(part for function, part in called.items() if LOCKING.match(function))
        share += unnamed * called.get(NO_SYMBOL, 0) * bool(share)
        if name in facts.places:
            out[name] = int(share * max(0, facts.places[name].cost - facts.asleep_by.get(name, 0)))
    return out


def begun(facts):
    """What the code before all constructs took."""
    return facts.places[BEGINNING].cost if BEGINNING in facts.places else 0


def system_time(facts):
    """Of code in the kernel, other than that before all constructs, or than the first use of memory. Idle threads are
    in the kernel too, where they yield the processor: code is there for its page faults, and for what it lasted longer
    than all time outside, unless that is for locks of the system; or by samples in calls, with what they take on the
    way."""
    usage = facts.usage or {}
    system, user = usage.get("system_ns") or 0, usage.get("user_ns") or 0
    if not system or system < MUCH_SYSTEM * (system + user):
        return min(system, A_FAULT * faults_again(usage))
    for_faults = min(fault_time(facts), facts.code * system // (system + user))
    first = for_faults * first_use_share(usage)
    longer = 0 if lock_of_switches(facts) else facts.code - user
    by_usage = min(system, max(for_faults, longer)) - max(begun(facts), int(first))
    return max(0, by_usage, calling(facts))


def calling(facts):
    """Of parallel code in calls of the kernel, by samples."""
    out = 0
    for place in parallel_places(facts):
        code = max(0, place.cost - facts.asleep_by.get(place.name, 0))
        called = shares(facts.calls.ran.get(place.name, {}), in_system)
        out += int(code * sum(share for name, share in called.items() if CALLING.match(name)))
    return out


def fault_time(facts):
    return A_FAULT * ((facts.usage or {}).get("minor_faults") or 0)


def faults_again(usage):
    """Page faults beyond one for each page that the program had at once: of memory that it gave back and took again."""
    return max(0, (usage.get("minor_faults") or 0) - usage["peak_bytes"] // A_PAGE) if usage.get("peak_bytes") else 0


def first_use_share(usage):
    """Of the page faults: no memory is without them that is used at all."""
    return 1 - faults_again(usage) / usage["minor_faults"] if usage.get("peak_bytes") and usage.get("minor_faults") \
        else 0.0


def has_many_faults(facts):
    """Whether page faults are most of what is lost to the system."""
    return 2 * fault_time(facts) >= system_time(facts)


def maps_memory(facts):
    """Whether the functions of the system in which most samples were map memory, or give it back."""
    found = Counter()
    for ran in facts.calls.ran.values():
        for calls, time in ran.items():
            found[in_system(calls) in MAPPING] += time * bool(in_system(calls))
    return found[True] > found[False]


def copying_at(facts):
    """The line of tasks at whose creation as much as most of the system's time is spent, and not in the runtime: it
    copies what they have of their own. Empty where there is none."""
    found = Counter()
    for name, lines in facts.calls.at.items():
        place = facts.places.get(name)
        if place and name.startswith("after " + CREATING):
            in_runtime = sum(time for calls, time in facts.calls.ran.get(name, {}).items() if calls[-1] == RUNTIME)
            found[place.at] += max(0, lines.get(place.at, 0) - in_runtime)
    line = max(found, key=found.get, default="")
    return line if 2 * 1000 * found[line] > system_time(facts) else ""
