"""Runs a program of which one allocation fails, for `../growths` and `out_of_memory`."""
import os
import subprocess
import tempfile

HERE = os.path.dirname(os.path.abspath(__file__))


class Refusing:
    """The library of refuse.c, built into a folder that the end of the `with` removes."""

    def __enter__(self):
        self.room = tempfile.TemporaryDirectory()
        self.library = f"{self.room.name}/refuse.so"
        subprocess.run(["cc", "-O1", "-shared", "-fPIC", "-o", self.library, f"{HERE}/refuse.c"], check=True)
        return self

    def __exit__(self, *_):
        self.room.cleanup()

    def environment(self, nth, told, is_marked=False):
        """The environment of a program whose nth allocation fails. The library makes the file `told` when it fails."""
        with_it = {**os.environ, "LD_PRELOAD": self.library, "REFUSE_NTH": str(nth), "REFUSE_TOLD": told}
        if is_marked:
            with_it["REFUSE_MARKED"] = "1"
        return with_it

    def run(self, words, nth, is_marked=False, **how):
        """Runs a program whose nth allocation fails. Returns how it ended, and whether there was such an allocation."""
        with tempfile.TemporaryDirectory(dir=self.room.name) as own:
            told = f"{own}/told"
            ran = subprocess.run(words, env=self.environment(nth, told, is_marked), capture_output=True, check=False, timeout=60, **how)
            return ran, os.path.exists(told)
