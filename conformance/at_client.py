"""The parts by which the kit judges a client. The kit is the client's server, and its user."""
import material
from links import Client, Differs
from rows import Names, rows_in

SITE = 7


def greet(client, board, limit=material.LIMIT):
    """Lets the client join as a site, with a board and a limit."""
    client.link.lines.are_next("hello 3")
    client.link.send_lines(f"welcome {SITE} {limit}", *board.lines, "ready")
    client.printed.are_next(f"site {SITE}")


def acts_of(client, board):
    """What each step of a transcript does, by its words."""
    return {
        "joins": lambda _, limit: greet(client, board, *filter(None, [limit])),
        "types": lambda _, line: client.types(f"{line}\n"),
        "types bytes": lambda _, text: client.types(material.text_of(text)),
        "closes": lambda *_: client.process.stdin.close(),
        "prints": lambda _, line: client.printed.are_next(line),
        "sends": lambda _, lines: client.link.lines.are_next(*material.lines_in(lines)),
        "is told": lambda _, lines: client.link.send_lines(*material.lines_in(lines)),
        "is told bytes": lambda _, text: client.link.send(material.text_of(text)),
        "is left": lambda *_: client.link.end(),
        "ends": lambda _, status: client.ends(int(status)),
    }


def play(words, transcript):
    with Client(words) as client:
        transcript.play(acts_of(client, transcript.board))


def judge_transforms(words, window):
    """In each row the user makes the client's operation. The server sends its own, before it has received the client's."""
    with Client(words) as client:
        board = material.table_board(window)
        greet(client, material.Board(board))
        made, others = Names(SITE), Names(3)
        for count, row in enumerate(it for it in rows_in(window) if it.row.client != "no"):
            names = made.next_for(row.row.client), others.next_for(row.row.server)
            try:
                judge_row(client, row, count, names, len(board))
            except Differs as differs:
                raise Differs(f"in the row `{row.row.text}`: {differs}") from None


def judge_row(client, row, count, names, height):
    """Plays one row. `height` is how many lines the client prints for its board."""
    own, _, other = row.spelled(*names)
    client.types(f"{row.command()}\n")
    client.link.lines.are_next(*f"batch {count} {count} 1 / do {own}".split(" / "))
    if not client.printed.next().startswith("made "):
        raise Differs("expected 'made'")
    client.link.send_lines(*f"batch {count} {count} 1 / do {other}".split(" / "))
    client.types("sync\nshow\n")
    client.link.lines.are_next(f"ping {count + 1}")
    client.link.send_lines(f"pong {count + 1}")
    client.printed.are_next("synced")
    shown = [client.printed.next() for _ in range(height)]
    if row.shown() not in shown:
        raise Differs(f"expected {row.shown()!r}, but got {[it for it in shown if it.split()[1] == str(row.row.number)]}")


def judge_line(words, row):
    with Client(words) as client:
        greet(client, material.Board(material.table_board(material.LINES_WINDOW)))
        client.types("sync\n")
        client.link.lines.are_next("ping 1")
        client.link.send_lines(*row.text.split(" / "), "pong 1")
        client.link.end()
        client.printed.are_next("synced" if row.fault is None else f"fault {row.fault}")
        if row.fault is not None:
            client.ends(4)


def judge_greeting(words, row):
    """Sends what a client reads after it has greeted, and tests what the client prints."""
    with Client(words) as client:
        client.link.lines.are_next("hello 3")
        client.link.send_lines(*row.text.split(" / "))
        client.link.end()
        client.printed.are_next(f"site {row.text.split()[1]}" if row.fault is None else f"fault {row.fault}")
        if row.fault is not None:
            client.ends(4)


def parts(words):
    """Each part with its name, and the rule that it shows."""
    for it in material.played("clients"):
        if not it.is_lasting:
            yield it.name, it.rule, lambda it=it: play(words, it)
    for window, name in material.TRANSFORM_WINDOWS.items():
        yield f"transforms of {name}", material.TRANSFORM_RULES[window], lambda window=window: judge_transforms(words, window)
    for row in material.lines_for("client"):
        yield row.name, row.rule(), lambda row=row: judge_line(words, row)
    for row in material.lines_for("greeting"):
        yield row.name, row.rule(), lambda row=row: judge_greeting(words, row)
