"""What the tests make up in place of programs, compilers and answers."""
from dataclasses import dataclass, field

from spanprof.program_text import Segment
from spanprof.tests.columns import code_of, sums_of

LDD_GCC = """\
\tlinux-vdso.so.1 (0x00007ff521519000)
\tlibgomp.so.1 => /lib/x86_64-linux-gnu/libgomp.so.1 (0x00007ff5214b8000)
\tlibc.so.6 => /lib/x86_64-linux-gnu/libc.so.6 (0x00007ff5212d6000)
\t/lib64/ld-linux-x86-64.so.2 (0x00007ff52151b000)
"""
LDD_LLVM = """\
\tlibomp.so.5 => /usr/lib/llvm-16/lib/libomp.so.5 (0x00007f0407087000)
\tlibc.so.6 => /lib/x86_64-linux-gnu/libc.so.6 (0x00007f0406e99000)
"""
LDD_MISSING = "\tlibomp.so.5 => not found\n\tlibc.so.6 => /lib/libc.so.6 (0x00007f0406e99000)\n"
LDD_PLAIN = "\tlibc.so.6 => /lib/x86_64-linux-gnu/libc.so.6 (0x00007f0406e99000)\n"
LDD_STATIC = "\tnot a dynamic executable\n"

SYMBOLS = """\

Symbol table '.dynsym' contains 6 entries:
   Num:    Value          Size Type    Bind   Vis      Ndx Name
     0: 0000000000000000     0 NOTYPE  LOCAL  DEFAULT  UND 
     4: 0000000000000000     0 FUNC    GLOBAL DEFAULT  UND GOMP_taskwait@GOMP_2.0 (4)
     5: 0000000000000000     0 FUNC    GLOBAL DEFAULT  UND GOMP_scope_start@GOMP_5.1 (5)
     7: 0000000000001190    95 FUNC    GLOBAL DEFAULT   14 main
    11: 00000000000011f0    12 FUNC    GLOBAL DEFAULT   14 GOMP_parallel@@GOMP_4.0
"""


@dataclass
class Head:
    region: str = "sort.c:48"
    threads: int = 4
    clock: str = "wall"
    unit: str = "us"
    elapsed: int = 40
    division: dict = field(default_factory=dict)
    covered: int = 97
    thread_time: int = 100
    covers_at_most: bool = False
    not_covered: dict = field(default_factory=dict)
    divided: list = field(default_factory=list)
    beside: int = None
    most_held: int = None
    clocks_differ: dict = field(default_factory=dict)
    taken_off: dict = field(default_factory=dict)
    slept: dict = field(default_factory=dict)
    untimed: int = 0
    runs: int = None
    spread: dict = field(default_factory=dict)
    remarks: list = field(default_factory=list)
    locks: list = field(default_factory=list)
    whole: str = ""
    pieces: int = 0
    pieces_of: str = "loops"
    parts: int = 0
    functions: dict = field(default_factory=dict)

    @property
    def nanoseconds(self):
        return {"ns": 1, "us": 1000, "ms": 1000000}.get(self.unit)


@dataclass
class Answers:
    """What `report.answers` would answer of a text of three segments."""
    name: str = "sort.tasks"
    tasks: int = 1
    parts: int = 0
    work: int = 100
    span: int = 70
    head: Head = field(default_factory=Head)

    def __post_init__(self):
        self.path = self.name
        self.span_numbers = {"segments": 3, "work": self.work, "span": self.span}
        self.code = code_of([Segment(0, "", "", "", 20), Segment(1, "sort.c:9", "", "", 30),
                             Segment(0, "", "taskwait", "", 50)])
        self.path_segments, self.is_long = [0, 2], False
        self.curve = {p: {"least": max(70, -(-100 // p)), "bound": (100 + (p - 1) * 70) // p} for p in (2, 4, 8, 16)}

    def sums(self, names):
        return sums_of(self.code, self.path_segments, names)
