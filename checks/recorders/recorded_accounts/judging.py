"""What the account of a run has to tell of each program of checks/recorders/recorded_accounts/causes.c: where the time
went, by how it is made. Shares are of the threads' time."""
import re

# However busy the machine is: how long tasks sleep, in microseconds, and what is left where not all threads have code.
SLEPT = {"serial": 12 * 8000, "wait": 4 * 72000, "lock": 16 * 10000, "balanced": 16 * 40000}
NO_CODE = {"small": 0.4, "serial": 0.7, "machine": 0.7}
# On a machine that does nothing else.
EXPECTED = {
    "small": {"delayed, starved": 0.4},     # idle while tasks are made, and before they are handed out
    "serial": {"starved": 0.35, "asleep": 0.1},
    "wait": {"starved": 0.35, "asleep": 0.1},
    "lock": {"at locks": 0.3},
    "machine": {"preempted": 0.4},
    "balanced": {"asleep, preempted": 0.6},     # what slept and then waited for a processor counts as preempted
}
# Idle time is laid to these places first; compilers tell another line of the construct. Of tiny tasks the code that
# makes them is delayed as well.
TINY = "task at causes.c:2[0-2]|code of one of the region's threads|after the barrier .*"
PLACES = {"small": ("delayed beside", TINY),
          "serial": ("starved while", "task at causes.c:2[7-9]"),
          "wait": ("starved while", "task at causes.c:3[6-8]")}
SUMS = {"delayed beside": "delayed", "starved while": "starved"}


def sums(account):
    """Where the parts do not add up."""
    parts, whole = account["parts"], account["threads"] * account["elapsed"]
    if sum(parts.values()) != whole or min(parts.values()) < 0:
        yield "the parts have %d of %d" % (sum(parts.values()), whole)
    for name, part in SUMS.items():
        if sum(account[name].values()) != parts[part]:
            yield "%s: its places have %d of %d" % (part, sum(account[name].values()), parts[part])


def sure_parts(name, account):
    parts, whole = account["parts"], account["threads"] * account["elapsed"]
    slept, idle = parts["asleep"] + parts["preempted"], parts["delayed"] + parts["starved"] + parts["preempted"]
    if slept < 0.99 * SLEPT.get(name, 0):
        yield "asleep and preempted have %d us, and tasks sleep for %d" % (slept, SLEPT[name])
    if idle < NO_CODE.get(name, 0) * whole:
        yield "delayed, starved, preempted are %.2f of the threads' time, and not %.2f" % (idle / whole, NO_CODE[name])


def causes(name, account):
    whole = account["threads"] * account["elapsed"]
    for part, least in EXPECTED[name].items():
        share = sum(account["parts"][one] for one in part.split(", ")) / whole
        if share < least:
            yield "%s is %.2f of the threads' time, and not %.2f" % (part, share, least)
    if name in PLACES:
        kind, place = PLACES[name]
        first = next(iter(account[kind]), "none")
        if not re.fullmatch(place, first):
            yield "%s %s, and not %s" % (kind, first, place)


def faults(name, reported, is_quiet):
    """What is wrong with what `spanprof-record --json` tells of a program; on a quiet machine with its shares too."""
    account = reported["account"]
    if not account:
        return ["no account: %s" % reported["no account"]]
    return [*sums(account), *sure_parts(name, account), *(causes(name, account) if is_quiet else ())]
