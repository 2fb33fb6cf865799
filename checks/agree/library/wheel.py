#!/usr/bin/env python3
"""Makes the wheel that carries the library, and runs the Python example of docs/CALLING.md with what it holds alone.

    checks/agree/library/wheel.py LIBRARY FOLDER     the folder of the library, and one to work in
"""
import os
import pathlib
import shutil
import subprocess
import sys
import zipfile

from documented import TOP, examples


def main(library, folder):
    prefix, wheels = pathlib.Path(folder, "prefix"), pathlib.Path(folder, "wheels")
    shutil.copytree(TOP / "tools" / "spanprof", prefix / "share" / "spanprof" / "spanprof")
    (prefix / "lib").mkdir()
    shutil.copy(pathlib.Path(library, "libspanprof.so"), prefix / "lib")
    subprocess.run([TOP / "tools" / "wheel.py", prefix, wheels, "2.17"], check=True)
    [wheel] = wheels.glob("*.whl")
    with zipfile.ZipFile(wheel) as packed:
        packed.extractall(pathlib.Path(folder, "unpacked"))
    environment = dict(os.environ, PYTHONPATH=str(pathlib.Path(folder, "unpacked")))
    environment.pop("SPANPROF_LIBRARY", None)
    [(code, said)] = [(code, said) for language, code, said in examples() if language == "python"]
    ran = subprocess.run([sys.executable, "-B", "-c", code], cwd=TOP, env=environment, capture_output=True, text=True,
                         check=False)
    if ran.stdout != said:
        print("WRONG: with %s the example prints\n%s%s" % (wheel.name, ran.stdout, ran.stderr))
        return 1
    print("%s: the example prints what it says" % wheel.name)
    return 0


if __name__ == "__main__":
    sys.exit(main(*sys.argv[1:]))
