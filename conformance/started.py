"""Servers of many boards that the kit starts by a command, one for each kind of parts."""
import contextlib
import itertools
import secrets
import shlex
import subprocess
import tempfile

import at_boards
import material
from links import Differs, Lines, address_bound, free_address

# Whom they let make boards, and how many edits a board takes, at the servers whose parts the kit has. A command without {create} or {limit} starts only the first.
KINDS = ("anyone", "owner", "nobody"), (material.LIMIT, material.FULL_LIMIT)


def boards(server, owner):
    """The parts for the server at an address, or for those that a command starts."""
    if " " not in server:
        yield from at_boards.parts(server, owner)
        return
    for create, limit in itertools.product(*KINDS):
        if is_started(server, create, limit):
            key = owner or secrets.token_hex(16) * ("{owner}" in server)
            with started(server, {"{create}": create, "{limit}": str(limit), "{owner}": key}) as address:
                yield from at_boards.parts(address, key)


def is_started(server, create, limit):
    """Whether the kit starts a server of this kind. Only that at which anyone makes boards has parts of a full order."""
    is_usual = create == "anyone", limit == material.LIMIT
    return any(is_usual) and (is_usual[0] or "{create}" in server) and (is_usual[1] or "{limit}" in server)


@contextlib.contextmanager
def started(server, values):
    """The address of a server. The end of the `with` stops it and removes its folder."""
    with tempfile.TemporaryDirectory(prefix="conformance-") as folder:
        values |= {"{}": free_address(), "{folder}": folder}
        try:
            process = subprocess.Popen([values.get(it, it) for it in shlex.split(server)], stdin=subprocess.DEVNULL, stdout=subprocess.PIPE, stderr=subprocess.PIPE)
        except OSError as fault:
            raise Differs(f"the server cannot be started: {fault}") from None
        with process:
            try:
                yield bound(Lines(process.stdout), Lines(process.stderr))
            finally:
                process.kill()


def bound(printed, told):
    """Where a server listens, by what it prints."""
    listening = printed.next("'listening' from the server")
    if not listening.startswith("listening "):
        raise Differs(f"expected 'listening', but the server printed {listening!r}")
    return address_bound(listening, told)
