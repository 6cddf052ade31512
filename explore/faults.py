"""What a command is refused for, and packages that aren't there."""

import importlib
import sys
from types import ModuleType


class Refused(Exception):
    """A command can't be done: each argument is a line that says why."""


def needed(module: str, package: str, purpose: str) -> ModuleType:
    """The module, or a refusal that names Debian's package for it."""
    try:
        return importlib.import_module(module)
    except ImportError as fault:
        raise Refused(f"{purpose} needs {package} (apt-get install {package}), which {sys.executable} doesn't find: {fault}") from fault
