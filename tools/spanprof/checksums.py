"""Whether a program or a library is one that was proved: its checksum stands beside it, in NAME.sha256, which the gate,
tools/prove_program.sh and tools/library.sh write."""
import hashlib
import os

SUFFIX = ".sha256"


def is_proved(path):
    """Whether the checksum beside this file, as `sha256sum` writes it, is that of its bytes, under its name."""
    try:
        with open(path + SUFFIX, encoding="ascii") as beside, open(path, "rb") as file:
            return beside.read().split() == [hashlib.sha256(file.read()).hexdigest(), os.path.basename(path)]
    except (OSError, UnicodeDecodeError):
        return False
