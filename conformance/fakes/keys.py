"""IDs and keys of boards (docs/WIRE.md, "IDs and keys")."""
import hashlib

ID, KEY, NAME = "[a-z2-7]{12}", "[0-9a-f]{32}", "[a-z][a-z0-9-]{0,31}"
# Each right gives what the next one gives.
RIGHTS = ("own", "edit", "read")


def keys_from(right, key):
    """The keys that a key of this right gives, by their rights, the highest first."""
    keys = {right: key}
    for lower in RIGHTS[RIGHTS.index(right) + 1 :]:
        key = keys[lower] = hashlib.sha256(f"{lower} 1 {key}".encode()).hexdigest()[:32]
    return keys


def digest(board_id, key):
    """What the server keeps of a key of a board."""
    return hashlib.sha256(f"{board_id} {key}".encode()).digest()
