"""The tools around spanprof: recordings, pages, changed programs, paths, tests of runtimes.

What `library` has for callers is here too, and loaded when it is asked for: `spanprof.read("mine.tasks").span`.
"""
MOST_THREADS = 1024     # of a schedule
OF_LIBRARY = ("NO_THREAD", "About", "Account", "Bounds", "Certificate", "NoLibrary", "Program",
              "Refused", "Run", "about", "check", "parse", "read")


def __getattr__(name):
    if name not in OF_LIBRARY:
        raise AttributeError("module 'spanprof' has no attribute %r" % name)
    from spanprof import library
    return getattr(library, name)
