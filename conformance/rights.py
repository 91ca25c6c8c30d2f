"""The IDs and keys of the boards that the kit makes at a server of many boards (docs/WIRE.md, "IDs and keys")."""
import hashlib
import secrets

LETTERS = "abcdefghijklmnopqrstuvwxyz234567"
RIGHTS = ("own", "edit", "read")


def key_below(word, key):
    """The edit key of an own key, or the read key of an edit key. The word is that of the right that it gives."""
    return hashlib.sha256(f"{word} 1 {key}".encode("ascii")).hexdigest()[:32]


class Keys:
    """A board by its ID and its keys. Both are random unless an own key is given. `run` is under which name the board is open, once a site has heard that."""

    def __init__(self, own=None):
        self.id, self.own, self.run = "".join(secrets.choice(LETTERS) for _ in range(12)), own or secrets.token_hex(16), None
        self.edit = key_below("edit", self.own)
        self.read = key_below("read", self.edit)

    def wrong(self, right, at):
        """The key of a right with another digit in one place."""
        key = getattr(self, right)
        return f"{key[:at]}{(int(key[at], 16) + 1) % 16:x}{key[at + 1 :]}"
