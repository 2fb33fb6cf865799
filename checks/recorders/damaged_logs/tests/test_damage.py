"""Each way damages what it is given, and the same seed damages it alike."""
import os
import random
import tempfile
import unittest

from damage import BLOCK, WAYS, damage, used

DATA = bytes(range(1, 201)) * 6 + bytes(400)


class Ways(unittest.TestCase):
    def test_up_to_where_it_has_bytes(self):
        self.assertEqual(used(DATA), 1200)
        self.assertEqual(used(bytes(9)), 1)

    def test_each(self):
        for way in WAYS:
            changed = sum(way(DATA, random.Random(seed)) != DATA for seed in range(20))
            self.assertGreater(changed, 10, way.__name__)
            self.assertEqual(way(DATA, random.Random(3)), way(DATA, random.Random(3)))

    def test_short_files(self):
        for way in WAYS:
            for data in (b"x", b"12345678", bytes(40)):
                way(data, random.Random(1))


class Folders(unittest.TestCase):
    def made(self, folder):
        for name in ("head", "modules", "thread.0.last", "thread.1.last"):
            with open(os.path.join(folder, name), "wb") as file:
                file.write(DATA)

    def read(self, folder):
        out = {}
        for name in os.listdir(folder):
            with open(os.path.join(folder, name), "rb") as file:
                out[name] = file.read()
        return out

    def test_a_folder(self):
        for seed in range(60):
            with tempfile.TemporaryDirectory() as folder:
                self.made(folder)
                how = damage(folder, random.Random(seed))
                self.assertTrue(how)
                if "full block" in how:
                    self.assertIn(BLOCK, map(len, self.read(folder).values()))


if __name__ == "__main__":
    unittest.main()
