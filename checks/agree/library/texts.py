"""The texts on which the library is tried: the examples, texts at the limits, and small ones with damage."""
import pathlib
import subprocess
import sys

TOP = pathlib.Path(__file__).resolve().parents[3]
sys.path.insert(0, str(TOP / "checks" / "agree"))
from damaged import LOOPS, PLAIN, damaged  # noqa: E402

HOSTILE = (b"", b"\n", b"omptasks", b"omptasks 3\n", b"\0" * 64, b"omptasks 1\n" + b"{" * 100, b"omptasks 1 # \xff\xfe",
           b"omptasks 1\n" + b"task { " * 65, b"omptasks 1 work 1000000000001", b"omptasks 1\nwork " + b"9" * 4096,
           b"omptasks 2\nfor i 0 70000 { work 1 }", b"omptasks 1\n" + b"a" * 4_194_304)


def examples():
    """Each example of the repository, by its name."""
    for path in sorted((TOP / "examples").rglob("*.tasks")):
        yield path.name, path.read_bytes()


def at_limits(folder):
    """The texts of bench/make_texts.py, which it writes into a folder."""
    subprocess.run([sys.executable, "-B", str(TOP / "bench/make_texts.py"), str(folder)], check=True,
                   stdout=subprocess.DEVNULL)
    for path in sorted(pathlib.Path(folder).glob("*.tasks")):
        yield path.name, path.read_bytes()


def hostile():
    """Texts of which most are refused."""
    for number, text in enumerate(HOSTILE):
        yield "hostile %d" % number, text
    for name, text in (("plain", PLAIN), ("loops", LOOPS)):
        for number, one in enumerate(damaged(text)):
            yield "%s damaged, %d" % (name, number), one
