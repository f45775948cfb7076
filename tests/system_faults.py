"""What a system may do to a server that runs, by stops/system.c: a clock that is wrong, connections that can't be
accepted, reads of few bytes. It holds no test."""

import functools
import os
import subprocess
import tempfile
from pathlib import Path

from shared import BUILDING, HERE


@functools.cache
def built():
    """The library of stops/system.c, and the folder in which it stands built."""
    folder = tempfile.TemporaryDirectory(prefix="bikeshare-system-")
    library = Path(folder.name, "system.so")
    subprocess.run(["cc", "-shared", "-fPIC", "-O2", "-o", library, HERE / "stops/system.c"], check=True)
    return folder, library


class System:
    """What a server of a folder meets, until it is told otherwise."""

    def __init__(self, program, **more):
        with BUILDING:
            library = built()[1]
        self.clock_file, self.accepts_file, self.tried_file = (
            Path(program.folder, it) for it in ("clock_by", "accepts", "accepts_tried")
        )
        self.env = {
            **os.environ, "LD_PRELOAD": str(library), "CLOCK_BY": str(self.clock_file),
            "ACCEPTS": str(self.accepts_file), "ACCEPTS_TRIED": str(self.tried_file), **more,
        }
        self.clock(0)

    def clock(self, ahead):
        """The clock is ahead by so many seconds. Whoever reads it meanwhile reads the one or the other."""
        self.say(self.clock_file, f"{ahead}\n")

    def no_accept(self, error, once=False):
        """Accepting fails by this error, once or until it is told otherwise."""
        self.say(self.accepts_file, f"{error}{'!' if once else ''}\n")

    def accept(self):
        """Accepting goes well."""
        self.accepts_file.unlink(missing_ok=True)

    def tried(self):
        """How often accepting failed since this was asked last."""
        found = len(self.tried_file.read_bytes()) if self.tried_file.exists() else 0
        self.tried_file.unlink(missing_ok=True)
        return found

    @staticmethod
    def say(file, text):
        new = Path(f"{file}.new")
        new.write_text(text)
        new.rename(file)
