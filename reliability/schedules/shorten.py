"""Makes a schedule that fails shorter: it leaves out decisions as long as the run still ends in the same way."""
import os


def read(path):
    with open(path, encoding="utf-8") as lines:
        return lines.read().splitlines()


def write(path, lines):
    with open(path, "w", encoding="utf-8") as file:
        file.writelines(f"{it}\n" for it in lines)


def without_parts(whole, fails):
    """A list that still fails, and of which no part of one line can be left out. It tries large parts first."""
    parts = 2
    while whole:
        size = -(-len(whole) // parts)
        for begin in range(0, len(whole), size):
            rest = whole[:begin] + whole[begin + size :]
            if fails(rest):
                whole, parts = rest, max(parts - 1, 2)
                break
        else:
            if size == 1:
                break
            parts = min(2 * parts, len(whole))
    return whole


def shorten(library, scenario, program, seed, **how):
    """The decisions of a short schedule that fails as that of the seed does: the file that has them, and how many they are of how many."""
    made, told = f"{library.room}/made", f"{library.room}/told"
    verdict = library.play(scenario, program, range(seed, seed + 1), made=made, **how).bad
    if not verdict:
        return None, 0, 0
    whole = read(made)

    def fails(lines):
        write(told, lines)
        return library.play(scenario, program, range(seed, seed + 1), told=told, **how).bad == verdict

    short = without_parts(whole, fails) if fails(whole) else whole
    write(told, short)
    os.replace(told, f"{library.room}/short")
    return f"{library.room}/short", len(short), len(whole)
