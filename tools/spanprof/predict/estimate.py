"""The program's time on some threads, by a simulation of a runtime's scheduling on the burdened text. It is a model:
nothing of it is proved."""
import statistics
from dataclasses import dataclass, replace
from math import exp, log
from typing import List, NamedTuple, Tuple

from spanprof.command import Fault
from spanprof.predict.burden import burdened
from spanprof.predict.gnu import LOCK, GnuSimulation
from spanprof.predict.growth import Growth
from spanprof.predict.interval import ALONE, AS_RECORDED, CHANGED, ON_GCC, ON_OTHERS, spread, width
from spanprof.predict.policy import Simulation, Spent
from spanprof.predict.recorded import GNU, LLVM, Recorded
from spanprof.predict.times import on_threads

RUNS = 3            # simulations, which differ in whom a thread steals from


@dataclass
class Estimate:
    """In nanoseconds. `costs` are those of the burdened text, that of the recording `base`."""
    base: Recorded
    threads: int
    time: int
    low: int
    high: int
    costs: List[int]
    outside: int
    dispatch: int = 0
    steal: int = 0
    grown: float = 0.0      # the logarithm of the work over that which was recorded
    by_lock: bool = False
    unmatched: float = 0.0  # of the work, what only the recording on more threads has
    runtime: str = LLVM
    of: int = 1             # recordings, of which it is the median
    apart: float = 0.0      # how far their predictions are


def base_of(recordings, threads):
    """The recordings on this number of threads, or those on the most; and how code grows from the ones before on."""
    if threads in recordings:
        return recordings[threads], None
    numbers = sorted(recordings)
    most = recordings[numbers[-1]]
    if numbers[-1] == 1:
        raise Fault("%s was recorded on one thread, where each task is undeferred: record on more" % most[0].name)
    return most, Growth(recordings[numbers[-2]], most) if len(numbers) > 1 else None


def spent_on(machine, threads, base=None):
    """A wake-up was measured with the creation of the task, and its steal. A dispatch that a recording tells has its
    steals in it."""
    creation, steal, wake_up = (machine.cost(name, threads) for name in ("creation", "steal", "wake_up"))
    is_reported = base is not None and base.dispatch is not None
    return Spent(0 if is_reported else steal, max(wake_up - creation - steal, 0))


def kind_of(of, threads):
    """Of a prediction by recordings on these numbers of threads, by which its interval is wide."""
    return AS_RECORDED if threads in of else ON_OTHERS if len(of) > 1 else ALONE


class Runs(NamedTuple):
    """How a run is simulated, what it takes to begin a task and to go on behind a wait, what else is spent, and when
    the threads come, which no other runtime tells."""
    simulation: type
    dispatch: int
    resumption: int
    spent: Spent
    came: Tuple[int, ...]


def runs_on_gcc(base, threads, wake, came):
    """As recorded, the wait for the lock is in the costs and in what a dispatch took; on other threads it is another
    one."""
    if base.runtime != GNU or base.dispatch is None:
        return Runs(GnuSimulation, 0, 0, Spent(0, wake, LOCK), came)
    if threads == base.threads:
        return Runs(GnuSimulation, base.dispatch, base.resumption, Spent(0, wake), came)
    return Runs(GnuSimulation, max(base.dispatch - LOCK, 0), base.resumption, Spent(0, wake, LOCK), came)


def runs_of(runtime, base, machine, threads):
    """On one thread LLVM's runtime runs tasks where they are made."""
    spent = spent_on(machine, threads, base)
    came = on_threads(base.arrivals, base.threads, threads) if runtime == base.runtime else ()
    if runtime == GNU:
        return runs_on_gcc(base, threads, spent.wake, came)
    dispatch = machine.cost("dispatch", threads) if base.dispatch is None else base.dispatch
    return Runs(Simulation, dispatch if threads > 1 else 0, 0, spent, came)


def simulated(runs, program, costs, threads, seeds):
    """The median end of some runs; on gcc's runtime there is no chance in them."""
    seeds = seeds if runs.simulation is Simulation else seeds[:1]
    return statistics.median_low(
        runs.simulation(program, costs, threads, runs.spent, seed, runs.came).run().end for seed in seeds)


def is_by_run(base, threads, runtime):
    return base.as_run > 0 and (threads, runtime) == (base.threads, base.runtime)


def by_model(one, machine, seeds):
    """On as many threads as were recorded."""
    runs = runs_of(one.runtime, one, machine, one.threads)
    costs = burdened(one.program, one.program.costs, runs.dispatch, runs.resumption)
    return simulated(runs, one.program, costs, one.threads, seeds) + one.outside


def by_run(base, machine, seeds):
    """As recorded, the run itself tells what the model leaves out, of a changed text by what the change does in it."""
    if base.before is None:
        return base.as_run
    return by_model(base, machine, seeds) * base.as_run // max(by_model(base.before, machine, seeds), 1)


def of_one(base, growth, machine, threads, runtime, seeds):
    """By one recording, and by how code grows; without an interval."""
    costs = growth.costs(base.program, threads) if growth else base.program.costs
    grown = log(max(sum(costs), 1) / max(base.work, 1))
    runs = runs_of(runtime, base, machine, threads)
    costs = burdened(base.program, costs, runs.dispatch, runs.resumption)
    outside = int(growth.outside(base, threads)) if growth else base.outside
    end = by_run(base, machine, seeds) if is_by_run(base, threads, runtime) else \
        simulated(runs, base.program, costs, threads, seeds) + outside
    time = max(end, base.held)
    return Estimate(base, threads, time, time, time, costs, outside, runs.dispatch, runs.spent.steal, grown,
                    base.held > end, growth.unmatched if growth else 0.0, runtime)


def estimate(recordings, machine, threads, runtime=None):
    """The median by several recordings, which stand in lists by their number of threads; on the runtime on which they
    were made, or on this one."""
    bases, growth = base_of(recordings, threads)
    runtime, runs = runtime or bases[0].runtime, -(-RUNS // len(bases))
    found = sorted((of_one(base, growth, machine, threads, runtime, range(runs * i, runs * (i + 1)))
                    for i, base in enumerate(bases)), key=lambda one: one.time)
    middle, fewest = found[(len(found) - 1) // 2], min(map(len, recordings.values())) if growth else len(found)
    apart = spread([one.time for one in found])
    kinds = [CHANGED if middle.base.is_changed else kind_of(recordings, threads)] + [ON_GCC] * (runtime == GNU)
    far = max(width(kind, fewest, apart, middle.grown) for kind in kinds)
    return replace(middle, low=int(middle.time / exp(far)), high=int(middle.time * exp(far)), of=len(found),
                   apart=apart)
