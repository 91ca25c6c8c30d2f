"""The rows of the table of transforms as operations of a link. Each row has a widget of its own, with the row's number as its id."""
import material


class Row:
    """A row in one of its windows, with how many items of the window come before its own."""

    def __init__(self, row, window, before):
        self.row, self.window, self.before = row, window, before
        self.word = material.WORDS.get(window, row.kind)

    def spelled(self, client, server):
        """The client's operation, what it becomes, and the server's. A new item has the name `client` or `server`."""
        row = self.row
        return (
            self.operation(row.client, row.client, client, "x"),
            self.operation(row.client_after, row.client, client, "x"),
            self.operation(row.server, row.server, server, "y"),
        )

    def operation(self, operation, first, new, letter):
        """An operation as a link carries it. `first` is how the operation was before it was moved, so its place tells the item that it deletes or relabels."""
        verb, _, place = operation.partition(" ")
        widget = f"{self.window} {self.row.number} {self.word}"
        if verb in ("no", "set"):
            return f"{widget} {operation}"
        if verb == "ins":
            return f"{widget} {operation} {new} {ord(letter) if self.word == 'text' else letter}"
        item = self.before + 1 + int(first.split()[1])
        return f"{widget} {verb} {place} 0.{item}" + (f" {letter.upper()}" if verb == "rel" else "")

    def command(self):
        """The client's operation as its user types it."""
        verb, _, rest = self.row.client.partition(" ")
        value = {"ins": ' char "x"' if self.word == "text" else ' item "x"', "rel": ' "X"'}.get(verb, "")
        return f"{verb} {self.window} {self.row.number} {rest}{value}"

    def shown(self):
        """The widget at the end, as it is printed."""
        return material.widget(self.word, self.row.number, self.row.start, self.row.shown)


class Names:
    """The names of what a site inserts, row by row."""

    def __init__(self, site):
        self.site, self.count = site, 0

    def next_for(self, operation):
        """The name of the item that the operation inserts, if it inserts one."""
        self.count += operation.startswith("ins")
        return f"{self.site}.{self.count}"


def rows_in(window):
    before = 0
    for row in material.transforms():
        if row.is_in(window):
            yield Row(row, window, before)
            before += len(row.start)
