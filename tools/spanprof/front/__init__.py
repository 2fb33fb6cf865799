"""Imported first of all: from here on Ctrl-C while modules are imported ends the process without a traceback."""
import _signal      # which is there already; `signal` takes some milliseconds

if _signal.getsignal(_signal.SIGINT) is _signal.default_int_handler:
    _signal.signal(_signal.SIGINT, _signal.SIG_DFL)
