import os
import tempfile
import unittest

from documents import can_run, commands, replaced

PAGE = """# A page

```
$ spanprof span < worked.tasks
work 11
$ spanprof span < worked.tasks | tail -1
span 9
```
"""


class Documents(unittest.TestCase):
    def test_commands_and_what_they_print(self):
        with tempfile.TemporaryDirectory() as folder:
            path = os.path.join(folder, "page.md")
            with open(path, "w", encoding="utf-8") as file:
                file.write(PAGE)
            self.assertEqual(list(commands(path)), [("spanprof span < worked.tasks", "work 11\n"),
                                                    ("spanprof span < worked.tasks | tail -1", "span 9\n")])

    def test_what_a_command_prints_now(self):
        reported = replaced(PAGE, "spanprof span < worked.tasks", "work 11\n", "work 12\n")
        self.assertEqual(reported, PAGE.replace("work 11", "work 12"))
        self.assertEqual(replaced(PAGE, "spanprof show", "work 11\n", "work 12\n"), PAGE)

    def test_what_is_left_out(self):
        with tempfile.TemporaryDirectory() as folder:
            commands_of = ("spanprof-record -- ./mine", "clang-19 mine.c", "spanprof span < none.tasks",
                           "spanprof-report --threads 8", "spanprof --help")
            self.assertEqual([can_run(command, folder) for command in commands_of], [False] * 4 + [True])


if __name__ == "__main__":
    unittest.main()
