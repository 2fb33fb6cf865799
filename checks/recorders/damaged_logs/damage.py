"""Ways to damage the files of a log."""
import os
import struct

BLOCK = 98304
LONG, SHORT = 24, 16
WORDS = (0, 1, 2, 0x7f, 0xff, 0xffff, 2 ** 31, 2 ** 32 - 1, 2 ** 48 - 1, 2 ** 63 - 1, 2 ** 63, 2 ** 64 - 1)


def used(data):
    """Up to where it has bytes; at least one."""
    return max(1, len(data.rstrip(b"\0")))


def place(data, chance):
    """Of a record, if it is one of the wall clock's, or near it."""
    return min(chance.randrange(used(data)) // 8 * 8, max(0, len(data) - 8))


def cut(data, chance):
    return data[:chance.randrange(used(data))]


def bits(data, chance):
    out = bytearray(data)
    for _ in range(chance.choice((1, 1, 2, 8, 64))):
        out[chance.randrange(used(data))] ^= 1 << chance.randrange(8)
    return bytes(out)


def a_word(data, chance):
    """Eight bytes that are odd at many places."""
    at = place(data, chance)
    return data[:at] + struct.pack("<Q", chance.choice(WORDS)) + data[at + 8:]


def a_byte(data, chance):
    at = chance.randrange(used(data))
    return data[:at] + bytes([chance.randrange(256)]) + data[at + 1:]


def noise(data, chance):
    at, many = place(data, chance), chance.choice((16, 64, 512))
    return data[:at] + chance.randbytes(many) + data[at + many:]


def zeros(data, chance):
    at, many = place(data, chance), chance.choice((8, 24, 4096))
    return data[:at] + bytes(many) + data[at + many:]


def swapped(data, chance):
    """Two stretches of some records in each other's place."""
    first, second = sorted((place(data, chance), place(data, chance)))
    many = min(LONG * chance.randrange(1, 8), second - first)
    return data[:first] + data[second:second + many] + data[first + many:second] + data[first:first + many] + \
        data[second + many:]


def repeated(data, chance):
    """A stretch of some records again, where others were."""
    first, second, many = place(data, chance), place(data, chance), LONG * chance.randrange(1, 40)
    return data[:second] + data[first:first + many] + data[second + len(data[first:first + many]):]


def left_out(data, chance):
    at, many = place(data, chance), chance.choice((LONG, SHORT, 8, 1)) * chance.randrange(1, 8)
    return data[:at] + data[at + many:]


def as_full_block(folder, name, data):
    """The last block as one that is full, and the last one empty."""
    with open(os.path.join(folder, name[:-len(".last")]), "wb") as file:
        file.write(data.ljust(BLOCK, b"\0"))
    return bytes(BLOCK)


WAYS = (cut, bits, bits, a_word, a_word, a_word, a_byte, noise, zeros, swapped, repeated, left_out)


def damage_one(folder, name, chance):
    """Damages a file of the folder; how, in words."""
    path = os.path.join(folder, name)
    with open(path, "rb") as file:
        data = file.read() or b"\0"
    way = chance.randrange(40)
    if way == 0:
        os.remove(path)
        return "%s removed" % name
    if way == 1 and name.endswith(".last"):
        new, words = as_full_block(folder, name, data), "as a full block"
    elif way == 2:
        others = [other for other in sorted(os.listdir(folder)) if other != name]
        with open(os.path.join(folder, chance.choice(others)), "rb") as file:
            new, words = file.read(), "another file's"
    else:
        how = chance.choice(WAYS)
        new, words = how(data, chance), how.__name__.replace("_", " ")
    with open(path, "wb") as file:
        file.write(new)
    return "%s: %s" % (name, words)


def damage(folder, chance):
    """Threads' files more often than the three others, which are short."""
    names = sorted(os.listdir(folder))
    weights = [4 if name.startswith("thread") else 1 for name in names]
    chosen = dict.fromkeys(chance.choices(names, weights, k=chance.choice((1, 1, 1, 2, 3))))
    return "; ".join(damage_one(folder, name, chance) for name in chosen if os.path.exists(os.path.join(folder, name)))
