"""Tests of the module texts."""
import itertools
import random
import time
import unittest

import texts

# How many characters the long texts have, and how many seconds a difference or a merge of them may take.
LONG, MOST_SECONDS = 60_000, 1.0
ALPHABETS = ("ab", "ab \n", "abcdef \n", "xy\r\n ", "aé😀\n")


def made(old, edits):
    """The text that edits make, step by step."""
    chars = list(old)
    for step in itertools.chain.from_iterable(edits):
        if step.char is None:
            del chars[step.place]
        else:
            chars.insert(step.place, step.char)
    return "".join(chars)


class Chance:
    """Texts at random."""

    def __init__(self, seed):
        self.random = random.Random(seed)

    def text(self, most, alphabet):
        return "".join(self.random.choices(alphabet, k=self.random.randrange(most)))

    def changed(self, text, alphabet):
        for _ in range(self.random.randrange(4)):
            start = self.random.randrange(len(text) + 1)
            text = text[:start] + self.text(6, alphabet) + text[start + self.random.randrange(4) :]
        return text

    def pairs(self, count):
        for _ in range(count):
            alphabet = self.random.choice(ALPHABETS)
            old = self.text(40, alphabet)
            yield old, self.changed(old, alphabet) if self.random.random() < 0.7 else self.text(40, alphabet)

    def side(self, base, letter):
        """A side of a merge: its words, and those of the base that it deleted."""
        words, deleted = [], set()
        for at, word in enumerate([*base, None]):
            words += [f"{letter}{at}.{more} " for more in range(self.random.choice([0, 0, 0, 1, 2]))]
            if word is not None and self.random.random() < 0.25:
                deleted.add(word)
            elif word is not None:
                words.append(word)
        return words, deleted

    def word(self):
        return "".join(self.random.choices("abcdefghijklmnopqrstuvwxyz", k=10)) + self.random.choice([" ", "\n", "\r\n"])

    def edited(self, words, most):
        """The words after some insertions and deletions."""
        words = list(words)
        for _ in range(self.random.randrange(most + 1)):
            if words and self.random.random() < 0.25:
                del words[self.random.randrange(len(words))]
            else:
                words.insert(self.random.randrange(len(words) + 1), self.word())
        return words

    def long_pairs(self):
        """Long texts, by what makes them hard."""
        word = lambda: "".join(self.random.choices("abcdefg", k=6))
        words = [word() for _ in range(LONG // 7)]
        noise = lambda alphabet: "".join(self.random.choices(alphabet, k=LONG))
        yield "nothing in common", noise("abcdef"), noise("ghijkl")
        yield "two letters at random", noise("ab"), noise("ab")
        yield "one word of the whole text", "a" * LONG, "a" * (LONG // 2) + "b" + "a" * (LONG // 2 - 1)
        yield "each second word deleted", " ".join(words), " ".join(words[::2])
        yield "each second line changed", "\n".join(words), "\n".join(it + "!" * (at % 2) for at, it in enumerate(words))
        yield "the lines sorted", "\n".join(words), "\n".join(sorted(words))
        yield "the same line again and again", "x\n" * (LONG // 2), "x\ny\n" * (LONG // 4)
        yield "white space alone", " " * LONG, " " * (LONG // 2) + "\n" + " " * (LONG // 2 - 1)


class Differences(unittest.TestCase):
    def test_apply(self):
        for old, new in Chance(1).pairs(3000):
            hunks = texts.difference(old, new)
            self.assertEqual(texts.apply(old, hunks), new)
            self.assertTrue(all(one.end < other.start for one, other in itertools.pairwise(hunks)), hunks)

    def test_equal_texts_have_none(self):
        self.assertEqual(texts.difference("a b\nc\n", "a b\nc\n"), [])

    def test_only_what_changed_is_in_it(self):
        rows = [
            ("a\nb\nc\n", "a\nB\nc\n", [texts.Hunk(2, 4, "B\n")]),
            ("colr is", "color is", [texts.Hunk(3, 3, "o")]),
            ("one two three", "one three", [texts.Hunk(4, 8, "")]),
            ("xa xb ", "xa xq xb ", [texts.Hunk(3, 3, "xq ")]),
            ("a\r\nb\r\n", "a\r\nb\r\nc\r\n", [texts.Hunk(6, 6, "c\r\n")]),
            ("one two\nthree four\n", "one 2\nthree 4\n", [texts.Hunk(4, 8, "2\n"), texts.Hunk(14, 19, "4\n")]),
        ]
        for old, new, due in rows:
            with self.subTest(old=old):
                self.assertEqual(texts.difference(old, new), due)

    def test_a_long_word_is_compared_by_characters(self):
        old = "春眠不覚暁処処聞啼鳥夜来風雨声花落知多少" * 3
        new = old[:10] + "X" + old[10:30] + old[31:]
        self.assertEqual(texts.size(texts.difference(old, new)), (1, 1))

    def test_long_texts_take_no_long_time(self):
        for name, old, new in Chance(2).long_pairs():
            with self.subTest(name):
                start = time.process_time()
                hunks = texts.difference(old, new)
                self.assertLess(time.process_time() - start, MOST_SECONDS)
                self.assertEqual(texts.apply(old, hunks), new)


class Edits(unittest.TestCase):
    def test_they_make_the_text(self):
        for old, new in Chance(3).pairs(3000):
            edits = list(texts.edits(old, new))
            self.assertEqual(made(old, edits), new)
            self.assertTrue(all(1 <= len(it) <= texts.MOST_COMMANDS for it in edits))

    def test_no_short_word_is_cut(self):
        words = [f"word{at}" for at in range(300)]
        text = ""
        for edit in texts.edits("", " ".join(words)):
            text = made(text, [edit])
            self.assertLessEqual(set(text.split()), set(words))

    def test_the_text_is_never_longer_than_both(self):
        old, new = "a" * 500, "b" * 500
        text = old
        for edit in texts.edits(old, new):
            text = made(text, [edit])
            self.assertLessEqual(len(text), 500)


class Merges(unittest.TestCase):
    def test_nothing_is_lost_and_nothing_comes_back(self):
        chance = Chance(4)
        for _ in range(3000):
            base = [f"b{at} " for at in range(chance.random.randrange(12))]
            (mine, gone), (theirs, gone_too) = chance.side(base, "m"), chance.side(base, "t")
            found = texts.merge("".join(base), "".join(mine), "".join(theirs)).split()
            due = [it for it in base if it not in gone | gone_too] + [it for it in mine + theirs if it[0] != "b"]
            self.assertEqual(sorted(found), sorted(it.strip() for it in due))

    def test_what_the_server_had_taken_is_there_once(self):
        chance = Chance(7)
        for _ in range(3000):
            base = [chance.word() for _ in range(chance.random.randrange(1, 12))]
            taken = chance.edited(base, 3)
            mine, theirs = chance.edited(taken, 2), chance.edited(taken, 5)
            found = texts.merge("".join(base), "".join(mine), "".join(theirs)).split()
            self.assertEqual(len(found), len(set(found)), (base, mine, theirs))
            kept = {it for it in mine + theirs if (it in mine and it in theirs) or it not in taken + base}
            self.assertEqual(set(found) & {it.strip() for it in kept}, {it.strip() for it in kept})

    def test_one_side_alone(self):
        for base, changed in Chance(5).pairs(1000):
            self.assertEqual(texts.merge(base, changed, base), changed)
            self.assertEqual(texts.merge(base, base, changed), changed)
            self.assertEqual(texts.merge(base, changed, changed), changed)

    def test_rows(self):
        rows = [
            ("what both inserted is there once", "a\nz\n", "a\nw\nz\n", "a\nx\nw\nz\n", "a\nx\nw\nz\n"),
            ("also if its neighbour was deleted", "a\nz\n", "a\nw\nz\n", "w\nz\n", "w\nz\n"),
            ("without a base all is kept", "", "a\nb\n", "b\nc\n", "a\nb\nc\n"),
            ("a deletion past an insertion", "one two three", "one three", "one two big three", "one big three"),
            ("both change a word", "the cat sat", "the dog sat", "the cow sat", "the cow dog sat"),
            ("both delete", "one two three", "one three", "one three", "one three"),
            ("line ends stay", "a\r\nb\r\n", "a\r\nb\r\nc\r\n", "0\r\na\r\nb\r\n", "0\r\na\r\nb\r\nc\r\n"),
        ]
        for name, base, mine, theirs, due in rows:
            with self.subTest(name):
                self.assertEqual(texts.merge(base, mine, theirs), due)

    def test_long_texts_take_no_long_time(self):
        for name, base, mine in Chance(6).long_pairs():
            with self.subTest(name):
                theirs = base[: LONG // 3] + " more " + base[LONG // 3 :]
                start = time.process_time()
                texts.merge(base, mine, theirs)
                self.assertLess(time.process_time() - start, 2 * MOST_SECONDS)


def origin(then, inode=1):
    """The file was saved after a moment, and had the text immediately."""
    return texts.Origin(inode, then, then)


class Versions(unittest.TestCase):
    def test_an_old_version_that_was_saved(self):
        versions = ["a\nb\n", "a\nb\ntheirs\n"]
        self.assertEqual(texts.started_from(versions, "a\nb\nmine\n"), versions[0])
        self.assertEqual(texts.started_from(versions, "a\nmine\nb\ntheirs\n"), versions[1])
        self.assertEqual(texts.started_from(["a\n", "a\n"], "b\n"), "a\n")

    def test_what_is_half_written_comes_from_the_version_of_which_it_is_a_part(self):
        self.assertEqual(texts.started_from(["", "a\nb\nc\nd\n"], "a\nmine"), "a\nb\nc\nd\n")

    def test_what_others_did_stays_if_an_editor_had_not_read_it(self):
        shared = texts.Shared("a\nb\n", "a\nb\n", ["a\nb\n"], {}, 0.0)
        shared.changed("a\nb\ntheirs\n")
        shared.wrote(1.0)
        shared.saved("a\nmine\nb\n", origin(2.0))
        self.assertEqual(shared.mine, "a\nmine\nb\ntheirs\n")
        self.assertEqual(shared.file, "a\nmine\nb\n")

    def test_what_others_did_can_be_deleted_later(self):
        shared = texts.Shared("a\nb\n", "a\nb\n", ["a\nb\n"], {}, 0.0)
        shared.changed("a\nb\ntheirs\n")
        shared.wrote(1.0)
        shared.saved("a\nb\n", origin(1.0 + texts.READ_AGO))
        self.assertEqual(shared.mine, "a\nb\n")

    def test_a_version_that_is_there_again(self):
        shared = texts.Shared("a\nb\n", "a\nb\n", ["a\n", "a\nb\n"], {}, 0.0)
        shared.saved("a\nb\n", origin(0.1))
        self.assertEqual(shared.read_lately(), ["a\n", "a\nb\n"])
        shared.saved("a\nmine\n", origin(0.2))
        self.assertEqual(shared.mine, "a\nb\nmine\n")
        self.assertEqual(shared.read_lately(), ["a\nmine\n"])

    def test_what_was_typed_while_nothing_ran(self):
        shared = texts.Shared("a\nb\n", "a\nb\n", ["a\nb\n"], {}, 0.0)
        shared.saved("a\nmine\nb\n", origin(0.1))
        shared.changed("b\ntheirs\n")
        self.assertEqual(shared.mine, "mine\nb\ntheirs\n")


class HalfWritten(unittest.TestCase):
    """A file that an editor writes in place, and in which it pauses. """

    WHOLE = "a\nmine\nb\nc\nd\n"

    def begun(self, half, others="a\nb\ntheirs\nc\nd\n"):
        """A half was saved, after others had inserted a word or done something else."""
        shared = texts.Shared("a\nb\nc\nd\n", "a\nb\nc\nd\n", ["a\nb\nc\nd\n"], {}, 0.0)
        shared.changed(others)
        shared.saved(half, origin(1.0))
        return shared

    def test_the_rest_comes(self):
        for half in ("", "a\n", "a\nmi", "a\nmine\nb\n", "a\nmine\nb\nc"):
            with self.subTest(half):
                shared = self.begun(half)
                shared.changed(f"0\n{shared.mine}")
                shared.saved(self.WHOLE, origin(3.0))
                self.assertEqual(sorted(shared.mine.split()), sorted("0 a mine b theirs c d".split()))
                self.assertEqual(shared.file, self.WHOLE)

    def test_what_others_deleted_before_stays_deleted(self):
        shared = self.begun("a\nmine\n", others="a\nb\nd\n")
        shared.saved(self.WHOLE, origin(3.0))
        self.assertEqual(shared.mine, "a\nmine\nb\nd\n")

    def test_it_comes_in_several_parts(self):
        shared = self.begun("a\n")
        for at, end in enumerate((4, 7, 9, len(self.WHOLE))):
            shared.saved(self.WHOLE[:end], origin(2.0 + at))
            shared.changed(f"{at}\n{shared.mine}")
        self.assertEqual(shared.mine, "3\n2\n1\n0\na\nmine\nb\ntheirs\nc\nd\n")
        self.assertEqual(shared.cuts, {})

    def test_it_comes_into_a_file_that_was_replaced(self):
        shared = self.begun("a\nmi")
        shared.changed(f"0\n{shared.mine}")
        shared.wrote(2.5)
        shared.strayed(["a\nmi"], self.WHOLE, origin(3.0))
        self.assertEqual(shared.mine, "0\na\nmine\nb\ntheirs\nc\nd\n")

    def test_the_end_was_deleted(self):
        for text, inode in [("a\nnew\n", 1), ("a\nmine\nb\nnew\n", 1), ("a\nmine\nb\nnew\n", 2)]:
            with self.subTest(text, inode=inode):
                shared = self.begun("a\nmine\nb\n", others="a\nb\nc\nd\n")
                shared.saved(text, origin(3.0, inode))
                self.assertEqual(shared.mine, text)

    def test_what_comes_later_is_new(self):
        shared = self.begun("a\nmine\n", others="a\nb\nd\n")
        shared.saved(self.WHOLE, origin(1.0 + texts.READ_AGO))
        self.assertEqual(shared.mine, self.WHOLE)

    def test_a_start_still_knows_it(self):
        before = self.begun("a\nmi")
        shared = texts.Shared(before.mine, before.mine, before.read_lately(), before.cuts, 100.0)
        shared.saved("a\nmi", origin(101.0))
        shared.saved(self.WHOLE, origin(102.0))
        self.assertEqual(shared.mine, "a\nmine\nb\ntheirs\nc\nd\n")


class Whole(unittest.TestCase):
    """Which of the texts that a file has, one after the other, count as whole, and when."""

    def come(self, *states, had=("a\nb\nc\nd\n",)):
        """When each of these states came, each with its moment and bytes, if at most one was there at a look. A look comes each half second."""
        whole, found = texts.Whole(list(had)), []
        for (since, data), end in zip(states, [*(it[0] for it in states[1:]), 100.0]):
            looks = (since + 0.5 * at for at in range(1, 200) if since + 0.5 * at <= end)
            found.append(next((now for now in looks if whole.has_come(data, since, now)), None))
        return found

    def test_a_text_with_its_end_has_come(self):
        self.assertEqual(self.come((1.0, b"a\nb\nd\n")), [1.5])
        self.assertEqual(self.come((1.0, b"a\nb\nc\nd\ne\n")), [1.5])
        self.assertEqual(self.come((1.0, b"a\nb\nc\nx\n")), [1.5])
        self.assertEqual(self.come((1.0, b"a\nb\nlong\n")), [1.5])

    def test_a_text_without_its_end_waits(self):
        self.assertEqual(self.come((1.0, b"a\nb\n")), [1.0 + texts.CUT])
        self.assertEqual(self.come((1.0, b"")), [1.0 + texts.CUT])
        self.assertEqual(self.come((1.0, "a\nb\né".encode()[:-1])), [1.0 + texts.CUT])

    def test_the_rest_comes(self):
        self.assertEqual(self.come((1.0, b"a\nmine\nb\n"), (3.0, b"a\nmine\nb\nc\nd\n")), [None, 3.5])
        self.assertEqual(self.come((1.0, b""), (3.0, b"a\nb\n"), (5.0, b"a\nb\nc\n")), [None, None, 1.0 + texts.LONGEST_CUT])

    def test_it_was_whole_if_nobody_goes_on_there(self):
        self.assertEqual(self.come((1.0, b"a\nb\n"), (3.0, b"a\nmine\nb\n")), [None, 3.5])
        self.assertEqual(self.come((1.0, b"a\nb\n"), (3.0, b"a\n")), [None, 3.0 + texts.CUT])

    def test_what_has_come_is_what_the_file_had(self):
        self.assertEqual(self.come((1.0, b"a\nb\nc\n"), (3.0, b"a\nb\n"), had=("a\nb\n",)), [1.5, 3.0 + texts.CUT])

    def test_a_file_may_have_had_one_of_several_texts(self):
        self.assertEqual(self.come((1.0, b"mine\n"), had=("", "a\nb\n")), [1.5])
        self.assertEqual(self.come((1.0, b"a\nb\n"), had=("", "a\nb\nc\n")), [1.0 + texts.CUT])


class Files(unittest.TestCase):
    def test_a_text(self):
        self.assertEqual(texts.read_text("tschüß 😀\r\n".encode()), "tschüß 😀\r\n")
        self.assertEqual(texts.read_text(b"\xef\xbb\xbfa"), "\ufeffa")
        self.assertEqual(len(texts.read_text(b"x" * texts.MOST_CHARACTERS)), texts.MOST_CHARACTERS)

    def test_what_is_none(self):
        rows = [
            (b"ab\xff", "byte 3 is no UTF-8"),
            ("aé".encode()[:2], "byte 2 is no UTF-8"),
            (b"\xed\xa0\x80", "byte 1 is no UTF-8"),
            (b"a\0b", "character 2 is NUL, so it seems to be no text"),
            (b"x" * 65_537, "it has 65,537 characters, and a text takes 65,536"),
        ]
        for data, why in rows:
            with self.subTest(why), self.assertRaises(texts.Unfit) as raised:
                texts.read_text(data)
            self.assertEqual(str(raised.exception), why)


if __name__ == "__main__":
    unittest.main()
