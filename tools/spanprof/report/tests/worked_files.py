"""Where the worked programs stand."""
import os

FOLDER = os.path.join(os.path.dirname(os.path.abspath(__file__)), "worked")


def path(name):
    return os.path.join(FOLDER, name)
