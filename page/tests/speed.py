"""How long what a user does takes to be seen by another, both beside the server. The best of three rounds counts."""
import statistics
import time

from browser import CONTROL
from editing import pasted
from stage import AREA, OTHER_AREA, expect, expect_that, focus

KEYS, ROUNDS = 60, 3
# What the median of keys may take, and the longest task of the other tab while someone pastes, both in milliseconds.
MEDIAN, LONGEST_TASK = 10, 200
PASTED = 60_000
# How many seconds a paste may take on a busy machine.
LONG = 180
NOW = "(performance.timeOrigin + performance.now())"


def keys(stage):
    """From a key in one tab to the text of another."""
    focus(stage.a)
    stage.a.run(f"window.times = [], {AREA}.addEventListener('keydown', () => times.push({NOW}), true)")
    stage.b.run(f"(() => {{ window.times = []; const it = {AREA}; const put = it.setRangeText; it.setRangeText = (...words) => {{ put.apply(it, words); times.push({NOW}); }}; }})()")
    medians = []
    while len(medians) < ROUNDS and min(medians, default=MEDIAN + 1) > MEDIAN:
        took = round_of_keys(stage)
        medians.append(statistics.median(took))
        print(f"page: a key is seen by the other after {medians[-1]:.1f} ms (the median), {took[int(0.95 * KEYS)]:.1f} ms (95 of 100), {took[-1]:.1f} ms (the longest)", flush=True)
    expect_that(min(medians) <= stage.slack * MEDIAN, f"a median of {medians} ms is at most {stage.slack * MEDIAN} ms")


def round_of_keys(stage):
    """How many milliseconds each of some keys takes, sorted."""
    for it in stage.tabs:
        it.run("times.length = 0")
    for at in range(KEYS):
        stage.a.type("x")
        stage.b.until(f"times.length > {at}")
        time.sleep(0.03)
    return sorted(end - begin for begin, end in zip(stage.a.run("times"), stage.b.run("times"), strict=True))


def a_paste(stage):
    """While one pastes a long text, the other can type."""
    stage.b.run("window.tasks = [], new PerformanceObserver((list) => tasks.push(...list.getEntries().map((it) => it.duration))).observe({ type: 'longtask' })")
    longest = []
    while len(longest) < ROUNDS and min(longest, default=LONGEST_TASK + 1) > LONGEST_TASK:
        longest.append(longest_task_of_paste(stage))
    expect_that(min(longest) <= stage.slack * LONGEST_TASK, f"a longest task of {longest} ms takes at most {stage.slack * LONGEST_TASK} ms")


def longest_task_of_paste(stage):
    text = "".join(f"{it:06d} some words of a line that is as long as many\n" for it in range(PASTED // 50))[:PASTED]
    stage.b.run("tasks.length = 0")
    focus(stage.a, area=OTHER_AREA)
    focus(stage.b)
    begun = time.monotonic()
    stage.a.run(pasted(text, OTHER_AREA))
    focus(stage.a, 0)
    stage.a.type("own ")
    expect(stage.a.run(f"{AREA}.value.slice(0, 4)"), "own ", "what is typed in another text meanwhile")
    stage.b.type("meanwhile", 0.05)
    stage.b.until(f"{OTHER_AREA}.value.length >= {PASTED}", LONG)
    took, tasks = time.monotonic() - begun, stage.b.run("tasks")
    print(f"page: a paste of {PASTED} characters is seen whole after {took:.1f} s, and the longest task of the other tab takes {max(tasks, default=0):.0f} ms", flush=True)
    expect_that(stage.agreed()[4] == text, "the paste is whole")
    focus(stage.a, area=OTHER_AREA)
    stage.a.press("a", CONTROL, ["selectAll"])
    stage.a.press("Backspace")
    expect(stage.agreed()[4], "", "the text after all of it is deleted")
    return max(tasks, default=0)


PARTS = {"a key is seen by another": keys, "a paste of 60,000 characters": a_paste}
