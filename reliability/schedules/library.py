"""The library of this folder, the scenarios, and runs of a built program by them."""
import dataclasses
import glob
import os
import re
import subprocess
import tempfile
import threading

HERE = os.path.dirname(os.path.abspath(__file__))
TOP = os.path.dirname(os.path.dirname(HERE))
LAYOUT = f"{TOP}/examples/desk.layout"
BOARD = 'window 1\ntext 1 "Hi"\nlist 2 "buy bread" "call Ann"\ntoggle 3 off\nslider 4 0 10 5\n'
ADDRESS = "127.0.0.1:4999"
FLAGS = ["-std=c11", "-D_GNU_SOURCE", "-O2", "-Wall", "-Wextra", "-Werror", "-shared", "-fPIC"]
# How a run ends that is not well, by its number. Others are those of signals.
VERDICTS = {2: "UNUSABLE", 3: "DEADLOCK", 4: "FAIL", 5: "UNEQUAL", 6: "LIVELOCK", 7: "LATE", 128 + 14: "HANG", 128 + 24: "HANG"}
# The first part of a program with code, and an instruction with its address and its bytes.
CODE = re.compile(r"LOAD\s+0x\w+ 0x(\w+) 0x\w+ 0x\w+ 0x\w+ R E")
INSTRUCTION = re.compile(r"\s*([0-9a-f]+):\t((?:[0-9a-f]{2} )+)\s*\t(.*)")
# An atomic instruction. One that names its place from where it is itself is left out, since its copy would name another.
ATOMIC = re.compile(r"(?:lock |xchg .*\()(?!.*\(%rip\))")
SUMMARY = re.compile(r"runs (\d+) bad (\d+) schedules (\d+) steps (\d+) switches (\d+) work (\d+)")
BAD = re.compile(r"seed (\d+) verdict (\d+)( differs)?")
# What a run that fails reports, up to the report of the next one.
REPORT = re.compile(r"seed \d+: .*?(?=^seed \d+: |\Z)", re.DOTALL | re.MULTILINE)


class Unusable(Exception):
    """The library or a scenario cannot be used."""


@dataclasses.dataclass
class Scenario:
    """A scenario, and what its first lines say of the run."""

    name: str
    path: str
    program: str = "jupd"
    sessions: str = "1"
    limit: str = "1000"
    ends: str = "0"
    grace: str = ""
    protocol: str = "3"

    @staticmethod
    def read(path):
        made = Scenario(os.path.basename(path).removesuffix(".scenario"), path)
        with open(path, encoding="utf-8") as lines:
            for line in lines:
                word, _, value = line.strip().partition(" ")
                if word in ("client", "clients"):
                    break
                if word in ("program", "sessions", "limit", "ends", "grace", "protocol"):
                    setattr(made, word, value)
        return made

    def words(self):
        """The arguments of the program."""
        grace = ["--grace", self.grace] if self.grace else []
        if self.program == "jupd":
            return ["--listen", ADDRESS, "--limit", self.limit, "--sessions", self.sessions, *grace]
        if self.program == "jupweb":
            return ["--listen", ADDRESS, "--board", "a.board", *grace]
        return ["--protocol", self.protocol, "--connect", ADDRESS]


def scenarios(word=""):
    """The scenarios whose name has this word."""
    found = map(Scenario.read, sorted(glob.glob(f"{HERE}/scenarios/*.scenario")))
    return [it for it in found if word in it.name]


@dataclasses.dataclass
class Result:
    """What came of some seeds: how many runs there were, those that were not well, what all did, and how many milliseconds a processor worked."""

    runs: int = 0
    schedules: int = 0
    steps: int = 0
    switches: int = 0
    work: int = 0
    bad: list = dataclasses.field(default_factory=list)
    report: str = ""

    def add(self, other):
        for it in ("runs", "schedules", "steps", "switches", "work"):
            setattr(self, it, getattr(self, it) + getattr(other, it))
        self.bad += other.bad
        self.report = self.report or other.report


def result_of(printed, said):
    """What the library printed of some seeds. A process that did not come to the end counts as one bad run."""
    found = SUMMARY.search(printed)
    if not found:
        raise Unusable(f"the runs were cut off: {printed[-300:]}{said[-300:]}")
    bad = [(int(seed), "DIFFERS" if differs else VERDICTS.get(int(verdict), f"SIGNAL {int(verdict) - 128}")) for seed, verdict, differs in BAD.findall(printed)]
    runs, _, *counts = map(int, found.groups())
    report = REPORT.search(said)
    return Result(runs, *counts, bad, report[0] if bad and report else "")


class Library:
    """The library, built into a folder that the end of the `with` removes. The folders of the runs are there too."""

    def __enter__(self):
        # In memory, if the system has such a place: each run of `jupweb` saves a board.
        self.place = tempfile.TemporaryDirectory(prefix="schedules-", dir="/dev/shm" if os.access("/dev/shm", os.W_OK) else None)
        self.room, self.atomics, self.lock = self.place.name, {}, threading.Lock()
        self.path = f"{self.room}/schedules.so"
        subprocess.run(["cc", *FLAGS, "-o", self.path, *sorted(glob.glob(f"{HERE}/*.c"))], check=True)
        with open(f"{self.room}/board", "w", encoding="utf-8") as file:
            file.write(BOARD)
        return self

    def __exit__(self, *_):
        self.place.cleanup()

    def atomics_of(self, program):
        """A file with the place and the length of each atomic instruction of a program."""
        with self.lock:
            if program not in self.atomics:
                self.atomics[program] = self.write_atomics(program)
            return self.atomics[program]

    def write_atomics(self, program):
        parts = subprocess.run(["readelf", "-lW", program], stdout=subprocess.PIPE, text=True, check=True).stdout
        code = subprocess.run(["objdump", "-dw", program], stdout=subprocess.PIPE, text=True, check=True).stdout
        found = [it for it in map(INSTRUCTION.match, code.splitlines()) if it and ATOMIC.match(it[3])]
        path = f"{self.room}/atomics-{len(self.atomics)}"
        with open(path, "w", encoding="utf-8") as file:
            print(CODE.search(parts)[1], *(f"{it[1]} {len(it[2].split())}" for it in found), sep="\n", file=file)
        return path

    def environment(self, scenario, program, seeds, is_twice=False, is_within_code=True, **files):
        """The environment in which the program plays a scenario by each of the seeds, a range. `files` are those for a trace and for decisions."""
        told = {"": scenario.path, "_FIRST": str(seeds.start), "_COUNT": str(len(seeds)), "_ENDS": scenario.ends, "_ROOM": self.room}
        told |= {f"_{name.upper()}": path for name, path in files.items() if path}
        if scenario.program == "jupd":
            told["_INPUT"] = LAYOUT
        if scenario.program == "jupweb":
            told["_BOARD"] = f"{self.room}/board"
        if is_twice:
            told["_TWICE"] = "1"
        if is_within_code:
            told["_ATOMICS"] = self.atomics_of(program)
        return {**os.environ, "LD_PRELOAD": self.path, **{f"SCHEDULES{name}": value for name, value in told.items()}}

    def play(self, scenario, program, seeds, processor=None, **how):
        """Plays a scenario by each of the seeds, on one processor."""
        pinned = None if processor is None else lambda: os.sched_setaffinity(0, {processor})
        environment = self.environment(scenario, program, seeds, **how)
        ran = subprocess.run([program, *scenario.words()], env=environment, stdin=subprocess.DEVNULL, capture_output=True, text=True, errors="replace", preexec_fn=pinned, check=False)
        return result_of(ran.stdout, ran.stderr)
