"""Small inputs of the programs, the same in each run: inputs.py FOLDER."""
import math
import os
import random
import struct
import sys

LETTERS = "ACDEFGHIKLMNPQRSTVWY"
# MD5-based hashes of passwords that are not among the words, as john reads them.
HASHES = "a:$1$ab$6p7K2oY92TM2ksdYZe0Wi/\nb:$1$cd$0uwsGDFQ5TJlo3rnna.si0\nc:$1$ef$iDCSoN7GYaLdqpv9Uemvo/\n"
# Wavelengths of a nebula's lines, their fluxes and how far these may be wrong, as neat reads them.
NEBULA = ((3726.03, 38, 2), (3728.82, 42, 2), (4101.74, 26, 1), (4340.47, 47, 2), (4363.21, 2.1, 0.3),
          (4861.33, 100, 3), (4958.91, 150, 5), (5006.84, 450, 10), (5754.6, 0.4, 0.1), (5875.66, 12, 1),
          (6548.1, 5, 0.5), (6562.77, 286, 8), (6583.5, 15, 1), (6716.44, 9, 1), (6730.82, 8, 1))
DRAWN = {"H": "9/9/9/f/9/9/9", "L": "8/8/8/8/8/8/f", "O": "6/9/9/9/9/9/6", "E": "f/8/8/e/8/8/f"}    # four points a row


def sequences(chance, count, length, changes, letters=LETTERS):
    """A family of proteins, or of genomes, of one ancestor."""
    ancestor = [chance.choice(letters) for _ in range(length)]
    for number in range(count):
        one = [chance.choice(letters) if chance.random() < changes else letter for letter in ancestor]
        yield "seq%d" % number, "".join(one)


def fasta(pairs):
    return "".join(">%s\n%s\n" % pair for pair in pairs)


def unaligned(chance):
    """The same length in none."""
    return fasta((name, one[chance.randrange(20):]) for name, one in sequences(chance, 24, 60, 0.2))


def cone(chance):
    """Generators of a cone, as normaliz reads them."""
    rows = [[chance.randrange(10) for _ in range(5)] for _ in range(14)]
    return "amb_space 5\ncone %d\n%s\n" % (len(rows), "\n".join(" ".join(map(str, row)) for row in rows))


def water(side):
    """A block of water molecules, as xtb reads them."""
    atoms = []
    for x, y, z in ((x * 3.0, y * 3.0, z * 3.0) for x in range(side) for y in range(side) for z in range(side)):
        atoms += [("O", x, y, z), ("H", x + 0.96, y, z), ("H", x - 0.24, y + 0.93, z)]
    return "%d\n\n%s\n" % (len(atoms), "\n".join("%s %.3f %.3f %.3f" % atom for atom in atoms))


def picture(width, height):
    """A grey picture, as a portable map."""
    points = (int(127 + 90 * math.sin(x / 17) * math.cos(y / 11)) for y in range(height) for x in range(width))
    return b"P5 %d %d 255\n" % (width, height) + bytes(points)


def lettering(words, size=6):
    """Letters in black on white, as a portable map."""
    lines = ["0".join(format(int(DRAWN[one].split("/")[row], 16), "04b") if one in DRAWN else "0000" for one in words)
             for row in range(7)]
    edge = ["0" * len(lines[0])] * 3
    rows = [bytes(0 if point == "1" else 255 for point in "000%s000" % line for _ in range(size))
            for line in edge + lines + edge for _ in range(size)]
    return b"P5 %d %d 255\n" % (len(rows[0]), len(rows)) + b"".join(rows)


def sound(seconds, rate=44100):
    """Two channels of a falling tone."""
    values = [int(9000 * math.sin(i / (9 + i / rate))) for i in range(seconds * rate) for _ in range(2)]
    data = struct.pack("<%dh" % len(values), *values)
    head = struct.pack("<4sI4s4sIHHIIHH4sI", b"RIFF", 36 + len(data), b"WAVE", b"fmt ", 16, 1, 2, rate, 4 * rate, 4, 16,
                       b"data", len(data))
    return head + data


def catalogue(chance, count, ending=""):
    """Messages and their translations, as msgmerge reads them; with an ending no translations."""
    texts = ["".join(chance.choice("abcdefghij ") for _ in range(40)) for _ in range(count)]
    head = 'msgid ""\nmsgstr "Content-Type: text/plain; charset=UTF-8\\n"\n\n'
    return head + "\n".join('msgid "%s%s"\nmsgstr "%s"\n' % (text, ending, "" if ending else text.upper())
                            for text in texts)


def field(side):
    """A block of numbers, as zfp reads them."""
    values = (math.sin(x / 5) * math.cos(y / 7) + z / side
              for z in range(side) for y in range(side) for x in range(side))
    return struct.pack("<%df" % side ** 3, *values)


def song(chords):
    """Notes, as fluidsynth reads them."""
    track = bytearray()
    for chord in range(chords):
        notes = [40 + (5 * chord + 7 * voice) % 40 for voice in range(4)]
        track += b"".join(bytes((0, 0x90, note, 90)) for note in notes)
        track += b"".join(bytes((60 * (note == notes[0]), 0x80, note, 0)) for note in notes)
    track += b"\0\xff\x2f\0"
    return struct.pack(">4sIHHH4sI", b"MThd", 6, 0, 1, 120, b"MTrk", len(track)) + bytes(track)


def inverters(stages):
    """A chain of inverters, as ngspice reads it."""
    pair = "mp{0} o{0} {1} vdd vdd pch w=2u l=0.18u\nmn{0} o{0} {1} 0 0 nch w=1u l=0.18u\nc{0} o{0} 0 5f\n"
    chain = "".join(pair.format(i, "o%d" % (i - 1) if i else "in") for i in range(stages))
    models = "".join(".model %s %s level=14 version=4.8.0\n" % (name, name[0] + "mos") for name in ("nch", "pch"))
    return "inverters\nvdd vdd 0 1.8\nvin in 0 pulse(0 1.8 0 20p 20p 0.5n 1n)\n" + chain + models + \
        ".tran 10p 0.3n\n.print tran v(o5)\n.end\n"


def classified(chance, count, form):
    """Lines of twelve values and their class, in the form of a program that learns."""
    for _ in range(count):
        values = [chance.randrange(20) for _ in range(12)]
        yield form(values, (values[0] * values[3] + values[5]) % 2)


def of_timbl(values, found):
    return "%s c%d\n" % (" ".join("v%d" % value for value in values), found)


def of_xgboost(values, found):
    return "%d %s\n" % (found, " ".join("%d:%d" % pair for pair in enumerate(values)))


def commands(count):
    """Some of which take four times as long, as ParaFly reads them."""
    return "".join("awk 'BEGIN { for (i = 0; i < %d; i++) s += i; print s }' > out%d\n"
                   % (200000 * (1 + 3 * (i % 5 == 0)), i) for i in range(count))


def words(chance, count, length):
    return ["".join(chance.choice("abcdefgh") for _ in range(length)) for _ in range(count)]


def crystal():
    """Aluminium, as elk reads it."""
    return "tasks\n  0\n\navec\n  3.8 3.8 0\n  3.8 0 3.8\n  0 3.8 3.8\n\nsppath\n  '/usr/share/elk-lapw/species/'\n\n" \
        "atoms\n  1\n  'Al.in'\n  1\n  0 0 0  0 0 0\n\nngridk\n  3 3 3\n\nmaxscl\n  3\n"


def pdf_page(chance, number):
    """The objects of a page of text and what it shows."""
    lines = (" ".join(words(chance, 12, 5)) for _ in range(50))
    shown = "".join("1 0 0 1 50 %d Tm (%s) Tj\n" % (780 - 14 * row, line) for row, line in enumerate(lines))
    yield "/Type /Page /Parent 2 0 R /MediaBox [0 0 595 842] /Resources << /Font << /F1 3 0 R >> >> " \
        "/Contents %d 0 R" % (5 + 2 * number), ""
    yield "/Length %d" % (len(shown) + 16), "\nstream\nBT /F1 11 Tf\n%sET\nendstream" % shown


def pdf(chance, pages):
    """Pages of text, as pdf2djvu reads them."""
    kids = " ".join("%d 0 R" % (4 + 2 * number) for number in range(pages))
    objects = [("/Type /Catalog /Pages 2 0 R", ""), ("/Type /Pages /Kids [%s] /Count %d" % (kids, pages), ""),
               ("/Type /Font /Subtype /Type1 /BaseFont /Helvetica", "")]
    objects += [one for number in range(pages) for one in pdf_page(chance, number)]
    out, places = "%PDF-1.4\n", []
    for number, (entries, stream) in enumerate(objects, 1):
        places.append("%010d 00000 n \n" % len(out))
        out += "%d 0 obj\n<< %s >>%s\nendobj\n" % (number, entries, stream)
    return out + "xref\n0 %d\n0000000000 65535 f \n%strailer\n<< /Size %d /Root 1 0 R >>\nstartxref\n%d\n%%%%EOF\n" % (
        len(places) + 1, "".join(places), len(places) + 1, len(out))


def learnt():
    """What timbl and xgboost learn from."""
    chance = random.Random(4)
    found = {"train.data": (3000, of_timbl), "test.data": (200, of_timbl), "train.svm": (3000, of_xgboost)}
    return {name: "".join(classified(chance, *how)) for name, how in found.items()}


def inputs():
    """What each file has."""
    chance = random.Random(1)
    found = {"aligned.fasta": fasta(sequences(chance, 40, 80, 0.3)), "proteins.fasta": unaligned(chance),
             "cone.in": cone(chance), "water.xyz": water(2), "picture.pgm": picture(400, 300), "sound.wav": sound(1)}
    found["reads.fasta"] = fasta(sequences(random.Random(2), 40, 100, 0.03, "acgt"))
    found["letters.pgm"] = lettering("HELLO HOLE HELL LEE HOE")
    found["old.po"], found["new.pot"] = (catalogue(random.Random(3), *what) for what in ((1500,), (600, " x")))
    found.update(learnt(), **{"field.raw": field(64), "song.mid": song(40), "inverters.cir": inverters(60),
                              "commands": commands(8)})
    found.update({"hashes": HASHES, "elk.in": crystal(), "pages.pdf": pdf(random.Random(5), 8),
                  "lines.dat": "".join("%s %s %s\n" % line for line in NEBULA),
                  "words": "\n".join(words(random.Random(6), 4000, 7)) + "\n",
                  "water.mop": "PM7 1SCF THREADS=2\nwater\n\n" + "\n".join(water(3).split("\n")[2:])})
    genomes = enumerate(sequences(chance, 3, 60000, 0.05, "ACGT"))
    return dict(found, **{"genome%d.fasta" % number: fasta([pair]) for number, pair in genomes})


def main(folder):
    for name, content in inputs().items():
        data = content if isinstance(content, bytes) else content.encode()
        with open(os.path.join(folder, name), "wb") as file:
            file.write(data)


if __name__ == "__main__":
    main(sys.argv[1])
