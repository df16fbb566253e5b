"""Debian's Python, whose packages have what the demos need beside Python's own modules."""

import importlib.util
import os
import sys

PYTHON = "/usr/bin/python3"


def begin_with(*modules: str) -> None:
    """Begins the program anew with Debian's Python where this one lacks one of these modules; ends it where both do."""
    missing = [name for name in modules if importlib.util.find_spec(name) is None]
    if missing and sys.executable != PYTHON and os.access(PYTHON, os.X_OK):
        os.execv(PYTHON, [PYTHON, *sys.argv])
    if missing:
        raise SystemExit(f"missing: {' '.join(missing)}; tools/needs --install installs the Debian packages")
