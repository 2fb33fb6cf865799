"""What the tests have as a program without bytes."""
import unittest
from unittest import mock


def with_a_proved_program():
    """For a module's tests, whose answers no program has computed."""
    patch = mock.patch("spanprof.client.not_proved", return_value="")
    patch.start()
    unittest.addModuleCleanup(patch.stop)
