"""Random programs. One seed, one program. Some are of forms that are known to be hard on a runtime: crowds of ready
tasks, many tasks that wait for one, short rounds that end with a wait, again and again, and groups that are cancelled.
Some are hard on its table of locations: many of them, some that are free again, sets of tasks one after another, and
tasks that end while others are created that wait for them.
"""
import itertools
import random
from dataclasses import dataclass, replace

from spanprof.conformance.emit.forms import addends
from spanprof.conformance.generate.program import Group, Index, Item, Loop, Task, Wait, Work, segment_count

LONG = 2000     # the cost of a task that keeps a thread busy while hundreds are created
CROWD_OF_ITEMS = 24
ROUNDS = 800    # segments of a program of rounds, about
HURRIED = 500   # of one that runs very often
APART = (0, 3, 13, 16, 26, 29)   # places of locations that a table of 13 looks for in one another's places
GATED = 160     # locations of one task, more than a table of 97 has room for
STREAM = 1600   # segments of a program of streams, about
NAMES = ("a", "b", "c", "d")
MOST_ITEMS = 6


def task(*body, items=(), undeferred=False, final=False, clauses=()):
    return Task(undeferred, final, tuple(items), tuple(body), clauses)


def item(kind, name="a", place=None):
    return Item(kind, name, None if place is None else Index(None, place))


class Recipes:
    """Makes programs by one random generator. Items are of these kinds."""

    def __init__(self, rng, kinds):
        self.rng = rng
        self.kinds = [kind for kind in ("in", "out", "inout") if kind in kinds]
        self.sets = [kind for kind in ("inoutset", "mutexinoutset") if kind in kinds]

    def may(self, likely):
        return self.rng.random() < likely

    @staticmethod
    def loop(turns, *body):
        return Loop("i", 1, turns, body)

    def small(self):
        """The body of one of many tasks: mostly nothing, or a child, or two and a wait for them."""
        return self.rng.choice(((), (), (Work(1),), (task(Work(1)),), (task(task(Work(1))),),
                                (task(), task(), Wait())))

    def priority(self):
        return (f"priority({self.rng.randint(1, 9)})",) if self.may(.3) else ()

    def later(self):
        """A task that waits for earlier ones on the location, and has to do so whatever came between."""
        kind = self.rng.choice(self.kinds)
        if self.may(.3):
            if self.may(.4):
                return task(items=[item(kind)], undeferred=True, clauses=("taskwait",))
            return task(items=[item(kind)], undeferred=True)
        final = self.may(.2)
        return task(*self.rng.choice(((), (Work(1),), (task(Work(1)), Work(1)))), items=[item(kind)], final=final,
                    clauses=self.priority())

    def around(self, body):
        """The body with a wait behind it, in a group, in a task, or with a task for which the region's end waits."""
        choice = self.rng.randrange(4)
        if choice == 0:
            return (*body, Wait())
        if choice == 1:
            return (Group(tuple(body)), Work(1))
        if choice == 2:
            return (*body, task(Work(self.rng.choice((1, LONG)))))
        return (task(*body, Wait()), Wait())

    def crowd(self):
        """Tasks that keep threads busy, more ready ones than a runtime queues, and tasks that wait for the first."""
        turns = self.rng.choice((80, 150, 300, 300, 1100))
        small = self.small() if turns < 1000 else ()
        busy = [task(Work(LONG), items=[item("out", "a" if place == 0 else "b", place or None)])
                for place in range(self.rng.choice((1, 3, 4)))]
        tail = [self.later() for _ in range(self.rng.randint(1, 4))]
        return self.around([*busy, self.loop(turns, task(*small, clauses=self.priority())), *tail])

    def fan(self):
        """Many tasks that wait for one slow task, perhaps in a group, and then others that wait for all of these."""
        turns = self.rng.choice((1, 7, 13, 40, 120))
        reader = task(*self.small(), items=[item("in")])
        if self.may(.25):
            reader = task(Work(1), items=[item("in")], clauses=("target",))
        readers = self.loop(turns, reader)
        if self.rng.random() < .5:
            readers = Group((readers,))
        body = [task(Work(LONG), items=[item("out")]), readers,
                *(self.later() for _ in range(self.rng.randint(1, 4)))]
        return self.around([Loop("j", 1, self.rng.choice((1, 2, 4)), tuple(body))])

    def rounds(self):
        """A few tasks with little work and a wait for them, again and again; perhaps in several tasks side by side."""
        body = self.round()
        apart = self.rng.choice((1, 1, 4, 8))
        turns = max(8, min(300, ROUNDS // apart // segment_count(body)))
        many = Loop("i", 1, turns, body)
        return (many,) if apart == 1 else (Loop("j", 1, apart, (task(many),)), Wait())

    def hurry(self):
        """Rounds with as little in them as there can be: one falls into the middle of another now and then."""
        tasks = self.rng.choice(((task(),), (task(), task()), (task(task()),),
                                 (task(items=[item("out")]), task(items=[item("in")]))))
        wait = task(items=[item("out")], undeferred=True)
        body = self.rng.choice(((*tasks, Wait()), (*tasks, Wait()), (Group(tasks),),
                                (*tasks, wait)))
        apart = self.rng.choice((1, 2, 3, 3))
        many = self.loop(HURRIED // apart // segment_count(body), *body)
        return (many,) if apart == 1 else (Loop("j", 1, apart, (task(many),)), Wait())

    def round(self):
        """Some tasks, and one of the statements that wait for them."""
        places, pace = self.rng.choice((1, 1, 2, CROWD_OF_ITEMS)), self.rng.choice((0, 0, 5, 30))
        tasks = []
        for number in range(self.rng.randint(1, 3)):
            tasks += [self.one_of(number, places, pace), *self.paced(pace)]
        chance = self.rng.random()
        if chance < .45:
            return (*tasks, Wait())
        if chance < .75:
            return (Group(tuple(tasks)),)
        written = ("taskwait",) if self.may(.4) else ()
        wait = task(items=[item("out", "a", 0), item("in", "a", 1)], undeferred=True, clauses=written)
        return (*tasks, wait)

    def paced(self, pace):
        """Work that takes a random time up to the pace of a round, so that one thing ends as another begins."""
        return (Work(self.rng.randint(0, pace)),) if pace else ()

    def one_of(self, number, places, pace):
        """The task of a round with this number: of several that depend, the later ones wait for the first."""
        body = (*self.paced(pace), *self.rng.choice(((), (), (), (task(),), (task(), Wait()))))
        if number == 0:
            return task(*body, items=[item("out", "a", place) for place in range(places)])
        return task(*body, items=[item("in", "a", 0)] if self.rng.random() < .6 else [])

    def cancelled(self):
        """Groups of which a task is cancelled, one after another, among tasks that are not in them. These are over when
        a group begins: a task that is left out does not wait for what it depends on."""
        body = [task(Work(self.rng.choice((1, 20))), items=[item("out")])]
        for _ in range(self.rng.choice((1, 2, 6))):
            body += [Wait(), self.cancelled_group(), task(items=[item("in")])]
        return self.around(body)

    def cancelled_group(self):
        """A group with a task that cancels it among others, which may be slow, blocked, in a group, or many."""
        tasks = [task(*self.small(), items=[item(self.rng.choice(self.kinds))] if self.rng.random() < .4 else [])
                 for _ in range(self.rng.choice((2, 5, 9)))]
        tasks.append(Group((task(Work(5)), task())))
        if self.may(.4):
            tasks.append(Loop("i", 1, self.rng.choice((20, 100)), (task(),)))
        canceller = task(Work(self.rng.choice((0, 5))), clauses=("cancels",))
        tasks.insert(self.rng.randrange(len(tasks)), canceller)
        slow = [task(Work(LONG))] * self.rng.randint(0, 2)
        return Group((*slow, *tasks, Work(self.rng.choice((0, 100, 500)))))

    def makers(self):
        """Tasks side by side that create tasks of one group all at once."""
        inner = Loop("i", 1, self.rng.choice((20, 60, 120)), (task(*self.rng.choice(((), (), (task(),)))),))
        return (Group((Loop("j", 1, self.rng.choice((2, 4, 8)), (task(inner),)),)), Work(1))


class LocationRecipes(Recipes):
    """The same, and those of locations."""

    def table(self):
        """More locations than a runtime has room for at first, below the root or another task; or in several tasks."""
        if self.rng.random() < .4:
            tasks = [self.gated(GATED * place) for place in range(self.rng.choice((2, 3, 4)))]
            return (*tasks, Wait())
        turns, apart = self.rng.choice((12, 40, 150, 300)), self.rng.choice((0, 1, 13, 31, 61))
        body = [self.over(turns, [("out", 0)], Work(self.rng.choice((1, 20, 100))))]
        for _ in range(self.rng.randint(1, 2)):
            places = [(self.rng.choice(self.kinds), 0)] + [("in", apart)] * (apart > 0 and self.rng.random() < .7)
            body.append(self.over(turns, places, undeferred=self.may(.3)))
        return self.around(body) if self.rng.random() < .5 else (task(*body, Wait()), Wait())

    def gated(self, first):
        """A task in which all tasks that write many locations wait for a slow one while their readers are created."""
        kind = self.rng.choice(self.kinds)
        writer = task(Work(1), items=[item("in", "g"), Item("out", "x", Index("i", first))])
        reader = task(items=[Item(kind, "x", Index("i", first))])
        gate = task(Work(LONG), items=[item("out", "g")])
        return task(gate, Loop("i", 1, GATED, (writer,)), Loop("i", 1, GATED, (reader,)), Wait())

    def over(self, turns, places, *body, undeferred=False):
        """A task for each turn, with items of these kinds at the turn's place and so many places further."""
        items = [Item(kind, "x", Index("i", place)) for kind, place in places]
        return Loop("i", 1, turns, (task(*body, items=items, undeferred=undeferred),))

    def probes(self):
        """In each of several tasks a few locations that a small table keeps in one another's places: the last one is
        still written while the others have ended, for which it waits perhaps; later tasks look for each."""
        places = [Index("i", place) for place in self.rng.sample(APART, self.rng.randint(2, 4))]
        fast = [task(items=[Item("out", "x", place)]) for place in places[:-1]]
        slow = task(Work(LONG // 2), items=[Item("out", "x", places[-1])])
        ended = self.readers(places[:-1], True) if self.may(.8) else []
        order = places[::-1] if self.rng.random() < .8 else places
        both = [task(*fast, slow, *ended, *self.readers(order, undeferred)) for undeferred in (True, False)]
        return (Loop("i", 1, 33, tuple(both)), Wait())

    def readers(self, places, undeferred):
        return [task(items=[Item("in", "x", place)], undeferred=undeferred) for place in places]

    def stream(self):
        """A short task that ends while more and more tasks are created that wait for it, again and again."""
        turns, cost = self.rng.choice((20, 40, 100)), self.rng.choice((1, 5, 15, 40))
        writer = task(Work(cost), items=[item("out")])
        readers = self.loop(turns, task(*self.rng.choice(((), (), (Work(1),), (task(),))), items=[item("in")]))
        return self.around([Loop("j", 1, STREAM // (2 * turns + 2), (writer, readers))])

    def members(self):
        """On one location one set of tasks after another, in which one is slow or none is: those of a set may run in
        any order, and each has to wait for all of the set before."""
        sets = []
        for _ in range(self.rng.randint(3, 7)):
            kind, count = self.rng.choice(("in", "out", *self.sets, *self.sets)), self.rng.choice((1, 2, 2, 3, 6))
            sets += self.one_set(kind, count, self.rng.randrange(2 * count))
        return self.around([Loop("i", 1, self.rng.choice((1, 2, 6)), tuple(sets))])

    def one_set(self, kind, count, slow):
        """So many tasks with an item of this kind, of which the one with this number is slow."""
        items, clauses = ([item("inoutset")], (kind,)) if kind == "mutexinoutset" else ([item(kind)], ())
        return [task(*([Work(200)] if number == slow else self.rng.choice(((), (), (Work(5),)))), items=items,
                     undeferred=self.may(.08), clauses=clauses) for number in range(count)]


@dataclass(frozen=True)
class Shape:
    """What kind of program to make."""
    weights: tuple            # how likely a task, a wait, a group, a loop, a yield, work is
    deepest: int              # blocks in one another
    longest: int              # statements of a body
    narrows: float            # by how much a body is shorter a level below
    items: float              # depend items of a task, on average
    undeferred: float = .1
    final: float = .06
    regions: bool = False     # whether the root is a list of parallel regions
    turns: tuple = (0, 1, 2, 3, 7)      # of a loop
    costs: tuple = (0, 1, 2, 5, 20)
    offsets: tuple = (-1, 0, 1, 2)      # of the index of an item
    plain: float = .9                   # how likely an item outside of loops has no index
    loops: int = 3                      # in one another
    sizes: tuple = (3, 600)             # segments of a program, at least and at most

    def length_at(self, depth):
        return max(1, int(self.longest / (1 + self.narrows * depth)))


SHAPES = {
    "mixed": Shape((8, 2, 2, 1, 1, 3), 5, 9, .6, 1.2),
    "deep": Shape((8, 1, 2, 0, 1, 1), 14, 2, 0, .6),
    "wide": Shape((20, 1, 1, 1, 1, 2), 3, 50, 20, 1.5),
    "dependences": Shape((20, .5, .5, 1, .5, 1), 3, 40, 20, 2),
    "groups": Shape((8, 1, 6, 0, 1, 1), 7, 5, .2, .5),
    "waits": Shape((8, 6, 1, 0, 1, 1), 6, 8, .4, .5),
    "undeferred": Shape((9, 1, 3, 0, 1, 1), 5, 8, .6, 1, undeferred=.5),
    "final": Shape((9, 1, 2, 0, 1, 1), 6, 6, .4, .8, final=.3),
    "loops": Shape((5, 1, 1, 6, .5, 1), 4, 5, .4, 1.5),
    "regions": Shape((8, 2, 2, 1, 1, 2), 5, 7, .5, 1.2, regions=True),
    # Many at once: more ready tasks than a runtime queues, full queues, short waits, tables of locations that grow.
    "crowd": Shape((6, 1, 3, 4, .5, 1), 3, 5, .4, .6, turns=(70, 150, 300), costs=(0, 0, 1),
                   loops=1, sizes=(150, 2500)),
    "pairs": Shape((6, 4, 2, 5, 1, .5), 3, 4, .3, .6, turns=(20, 60, 150), costs=(0,),
                   loops=1, sizes=(100, 2000)),
    "names": Shape((9, .5, .5, 3, 0, 1), 3, 9, .5, 1.5, turns=(7, 40, 110), costs=(0, 0, 1, 20),
                   offsets=(0, 13, 31, 61, 97), plain=.2, loops=1, sizes=(60, 1500)),
}


# Forms of their own beside the shapes, each as the function that makes a body of it.
RECIPES = {"many": LocationRecipes.crowd, "fan": LocationRecipes.fan, "rounds": LocationRecipes.rounds,
           "hurry": LocationRecipes.hurry, "makers": LocationRecipes.makers, "cancel": LocationRecipes.cancelled,
           "table": LocationRecipes.table, "probes": LocationRecipes.probes, "stream": LocationRecipes.stream,
           "members": LocationRecipes.members}


class Generator:
    def __init__(self, rng, shape, kinds):
        self.rng, self.shape = rng, shape
        self.kinds = [kind for kind in ("in", "out", "inout", "inoutset", "in", "inoutset") if kind in kinds]
        self.knows_exclusion = "mutexinoutset" in kinds
        self.names = NAMES[:rng.choice((1, 2, 2, 4))]
        self.left = rng.choice((10, 25, 60, 120))

    def program(self):
        if not self.shape.regions:
            return self.body()
        return tuple(self.region() for _ in range(self.rng.choice((1, 1, 2, 3))))

    def region(self):
        """A parallel region, in which each of some threads has a body of its own."""
        bodies = [self.body() for _ in range(self.rng.choice((2, 2, 3, 4)))]
        return Group(tuple(Task(False, False, (), body) for body in bodies), "parallel")

    def body(self, depth=0, loops=()):
        most = self.shape.length_at(depth)
        length = self.rng.randint(most // 2, most)
        body = []
        while len(body) < length and self.left > 0:
            self.left -= 1
            body.append(self.statement(depth, loops))
        return tuple(body)

    def statement(self, depth, loops):
        calls = (self.task, self.wait, self.group, self.loop, self.pause, self.work)
        made = self.rng.choices(calls, self.shape.weights)[0]
        no_loop = len(loops) == self.shape.loops
        if depth >= self.shape.deepest or made == self.loop and no_loop:
            made = self.work
        return made(depth, loops)

    def work(self, _depth, _loops):
        return Work(self.rng.choice(self.shape.costs))

    def wait(self, _depth, _loops):
        return Wait()

    def pause(self, _depth, _loops):
        return Group((), "taskyield" if self.chance(.8) else "taskgroup")

    def group(self, depth, loops):
        body = self.body(depth + 1, loops)
        return Group(body, "reduction" if addends(body) and self.chance(.2) else "taskgroup")

    def loop(self, depth, loops):
        if self.chance(.3):
            return self.task_loop(depth, loops)
        var, first, last = self.turns(loops)
        return Loop(var, first, last, self.body(depth + 1, (*loops, var)))

    def turns(self, loops):
        first = self.rng.randrange(3)
        return "ijk"[len(loops)], first, first + self.rng.choice(self.shape.turns)

    def task_loop(self, depth, loops):
        """A taskloop, with its group or without."""
        var, first, last = self.turns(loops)
        task = Task(False, self.chance(self.shape.final), (), self.body(depth + 1, (*loops, var)),
                    self.clauses())
        form = "taskloop" + self.chunks()
        if self.rng.random() < .5:
            return Loop(var, first, last, (task,), form)
        form += " reduction" * (form == "taskloop" and self.chance(.3))
        return Group((Loop(var, first, last, (task,)),), form)

    def chunks(self):
        """How many turns the tasks of a taskloop get: one each where nothing is said."""
        if self.chance(.15):
            return " any"
        clause = next((clause for clause in ("num_tasks", "grainsize") if self.chance(.25)), "")
        strict = "strict:" if self.chance(.3) else ""
        return clause and f" {clause}({strict}{self.rng.choice((1, 2, 3, 5, 8))})"

    def task(self, depth, loops):
        undeferred = self.chance(self.shape.undeferred)
        items = self.items(loops)
        if undeferred and items and self.chance(.3):
            return Task(True, False, items, (), ("taskwait",))
        if not undeferred and self.chance(.04):
            return self.detached(items)
        if not undeferred and self.chance(.04):
            return Task(False, False, items, (self.work(0, ()),), ("target",))
        final = self.chance(self.shape.final)
        clauses = self.clauses()
        if items and self.knows_exclusion and self.chance(.15):
            items, clauses = (replace(items[0], kind="inoutset"), *items[1:]), (*clauses, "mutexinoutset")
        return Task(undeferred, final, items, self.body(depth + 1, loops), clauses + self.way_of_items(items))

    def detached(self, items):
        """A task that an event completes."""
        inner = Task(True, False, (), (self.work(0, ()),))
        return Task(False, False, items, (self.work(0, ()), inner, self.work(0, ())), ("detach",))

    def way_of_items(self, items):
        """By which construct the items of a task are written in C."""
        way = next((way for way in ("depobj", "iterator") if items and self.chance(.08)), None)
        return (way,) if way else ()

    def clauses(self):
        """Clauses that change nothing of what must precede what."""
        clauses = ("mergeable",) if self.chance(.1) else ()
        clauses += ("copied",) if self.chance(.08) else ()
        return clauses + ((f"priority({self.rng.randint(0, 9)})",) if self.chance(.15) else ())

    def chance(self, likely):
        return self.rng.random() < likely

    def items(self, loops):
        count = min(MOST_ITEMS, int(self.rng.expovariate(1 / self.shape.items)))
        items = [Item(self.rng.choice(self.kinds), self.rng.choice(self.names), self.index(loops))
                 for _ in range(count)]
        return tuple(items)

    def index(self, loops):
        if self.rng.random() < (.2 if loops else self.shape.plain):
            return None
        return Index(self.rng.choice((None, *loops)) if loops else None, self.rng.choice(self.shape.offsets))


def shape_of(seed):
    """The name of the shape or form of a seed's program."""
    return random.Random(seed).choice([*SHAPES, *RECIPES])


def seeds_in_turn(first, count):
    """So many seeds from the first on, whose programs are of a form and of a shape in turn: of another one each time,
    as long as there are others."""
    def seeds_of(name):
        return (seed for seed in itertools.count(first) if shape_of(seed) == name)

    pairs = itertools.zip_longest(RECIPES, reversed(SHAPES))
    names = [name for pair in pairs for name in pair if name]
    seeds = {name: seeds_of(name) for name in names}
    return (next(seeds[name]) for name in itertools.islice(itertools.cycle(names), count))


def random_program(seed, kinds):
    """The name of its shape or form, and the program, of items of these kinds."""
    rng = random.Random(seed)
    name = rng.choice([*SHAPES, *RECIPES])
    if name in RECIPES:
        return name, RECIPES[name](LocationRecipes(rng, kinds))
    least, most = SHAPES[name].sizes
    while True:
        body = Generator(rng, SHAPES[name], kinds).program()
        if least <= segment_count(body) <= most:
            return name, body
