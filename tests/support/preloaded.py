"""Libraries that are preloaded into a program (LD_PRELOAD), compiled once."""

import atexit
import pathlib
import shutil
import subprocess
import tempfile
import threading

from suite import Failed

FOLDER = pathlib.Path(tempfile.mkdtemp(prefix="ripngd-preloaded-"))
LOCK = threading.Lock()
atexit.register(shutil.rmtree, FOLDER, ignore_errors=True)


def compiled(source):
    """The library of a file in C, for LD_PRELOAD."""
    if not shutil.which("cc"):
        raise Failed("there is no compiler of C, cc")
    library = FOLDER / f"{pathlib.Path(source).stem}.so"
    with LOCK:
        if not library.exists():
            subprocess.run(["cc", "-O1", "-shared", "-fPIC", "-o", library, source], check=True)
    return str(library)
