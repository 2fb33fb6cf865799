"""What LLVM's runtime takes for tasks on a machine, as `spanprof-record --calibrate` has measured it once."""
import json
import os
import statistics
from dataclasses import dataclass
from typing import Dict

from spanprof.command import Fault, naming, writing

COSTS = ("creation", "dispatch", "steal", "wake_up")
HOW = "spanprof-record --calibrate measures it"


@dataclass(frozen=True)
class Measured:
    """In nanoseconds; nine of ten samples are no more than `most`."""
    least: int
    median: int
    most: int
    times: int

    @staticmethod
    def of(samples):
        taken = sorted(samples)
        return Measured(taken[0], int(statistics.median_low(taken)), taken[(9 * len(taken) - 1) // 10], len(taken))


NOTHING = Measured(0, 0, 0, 0)


@dataclass
class Machine:
    """By number of threads, what each of `COSTS` takes, where that was measured."""
    threads: Dict[int, Dict[str, Measured]]
    about: Dict[str, str]

    def nearest(self, threads):
        """The greatest number that was measured up to this one, or else the smallest."""
        return max((n for n in self.threads if n <= threads), default=min(self.threads))

    def cost(self, name, threads):
        """The least that was measured: what else the machine did is in the others."""
        return self.threads[self.nearest(threads)].get(name, NOTHING).least


def machine_file():
    """Where the model of this machine lies: as SPANPROF_MACHINE says, or with the user's settings."""
    settings = os.environ.get("XDG_CONFIG_HOME") or os.path.join(os.path.expanduser("~"), ".config")
    return os.environ.get("SPANPROF_MACHINE") or os.path.join(settings, "spanprof", "machine.json")


def as_json(machine):
    return {"spanprof machine": 1, **machine.about, "unit": "ns", "threads": {
        str(threads): {name: vars(one) for name, one in costs.items()} for threads, costs in machine.threads.items()}}


def from_json(reported):
    if reported.get("spanprof machine") != 1:
        raise ValueError("`spanprof machine` is not 1 in it")
    threads = {int(number): {name: Measured(**one) for name, one in costs.items()}
               for number, costs in reported["threads"].items()}
    about = {name: reported[name] for name in ("date", "processor", "runtime") if name in reported}
    return Machine({number: threads[number] for number in sorted(threads)}, about)


def read_machine(path):
    try:
        with open(path, encoding="utf-8") as file:
            machine = from_json(json.load(file))
        machine.cost("dispatch", 1)
        return machine
    except OSError as wrong:
        raise Fault("%s: %s; %s" % (path, wrong.strerror, HOW)) from wrong
    except json.JSONDecodeError as wrong:
        raise Fault("%s is not a model of a machine: not JSON; %s" % (path, HOW)) from wrong
    except (ValueError, KeyError, TypeError, AttributeError) as wrong:
        raise Fault("%s is not a model of a machine: %s; %s" % (path, wrong, HOW)) from wrong


def write_machine(machine, path):
    with naming(path):
        os.makedirs(os.path.dirname(os.path.abspath(path)), exist_ok=True)
    with writing(path) as file:
        json.dump(as_json(machine), file, indent=1)
        file.write("\n")
