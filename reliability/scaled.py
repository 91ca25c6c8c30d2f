"""A `jupd` for which ten minutes that a peer takes nothing are shorter."""
import os
import subprocess
import tempfile

HERE = os.path.dirname(os.path.abspath(__file__))


class Scaled:
    """The library of scaled.c, built into a folder that the end of the `with` removes."""

    def __init__(self, scale):
        self.scale = scale

    def __enter__(self):
        self.room = tempfile.TemporaryDirectory()
        library = f"{self.room.name}/scaled.so"
        subprocess.run(["cc", "-O1", "-shared", "-fPIC", "-o", library, f"{HERE}/scaled.c"], check=True)
        self.environment = {**os.environ, "LD_PRELOAD": library, "SCALE": str(self.scale)}
        return self

    def __exit__(self, *_):
        self.room.cleanup()
