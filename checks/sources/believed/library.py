"""All definitions and promises of a repository, and the walk from a promise to what it rests on."""
import pathlib
from collections import defaultdict

from believed.clauses import promises_of
from believed.definitions import arms_of, definitions_of, imports_of, module_of, words_of


class Library:
    def __init__(self, files):
        """`files` are pairs of a module's name and its text."""
        self.definitions, self.imports, self.arms = {}, {}, {}
        self.modules = defaultdict(list)    # by the name of a definition
        for module, text in files:
            self.imports[module] = imports_of(text)
            for name, definition in definitions_of(module, text).items():
                self.definitions[module, name] = definition
                self.modules[name].append(module)
                for arm in arms_of(definition):
                    self.arms[module, name, arm] = (module, name)

    def meaning(self, imports, module, word):
        """The definition that a word of a module cites, or None for one of std or of the code's own types."""
        here = (module, word)
        if here in self.definitions:
            return here
        first, _, rest = word.partition(".")
        there = imports.get(word) or imports.get(first)
        if there is None:
            return None
        path, name = there if there[1] else (there[0], rest or None)
        if (path, name) in self.definitions:
            return path, name
        outer, _, last = path.rpartition(".")
        if (outer, last) in self.definitions:
            return outer, last
        return self.handed_on(path, name)

    def handed_on(self, path, name):
        """A module of a lower crate that another crate's specs hand on under its own name."""
        stem = path.split(".")[-1]
        places = [module for module in self.modules.get(name, ()) if module.endswith("." + stem)]
        return (places[0], name) if len(places) == 1 else None

    def cited(self, imports, module, words):
        """The definitions that these words of a module cite, by name."""
        keys = (self.meaning(imports, module, word) for word in sorted(words))
        return list(dict.fromkeys(key for key in keys if key))

    def rests_on(self, promise):
        """All definitions that a promise rests on, each after those that it cites itself."""
        done, seen = [], set()
        stack = [(key, False) for key in reversed(self.cited(dict(promise.imports), "", words_of(promise.clauses)))]
        while stack:
            key, is_left = stack.pop()
            if is_left:
                done.append(self.definitions[key])
            elif key not in seen:
                seen.add(key)
                stack.append((key, True))
                words = self.definitions[key].words
                stack += [(other, False) for other in reversed(self.cited(self.imports[key[0]], key[0], words))]
        return done


def read_library(top):
    """The library and the promises of the repository at `top`."""
    specs = sorted(pathlib.Path(top).glob("crates/*/specs/*.antt"))
    library = Library((module_of(path), path.read_text()) for path in specs if path.stem != "Lib")
    promises = {}
    for path in sorted(pathlib.Path(top).glob("crates/*/src/**/*.rt")):
        crate = path.relative_to(top).parts[1]
        for promise in promises_of(crate, path.read_text()):
            promises[promise.title] = promise
    return library, promises
