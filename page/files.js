// A board as a file: a text, the printed form that `jupweb` and `jupboard` take, and JSON. Nothing here needs a page.

// In `captionOf(key, kind)` a key is like "1" or "1.2".
export function asText(board, captionOf) {
  const parts = [];
  for (const [win, widgets] of board.windows) {
    const caption = captionOf(String(win));
    parts.push(`${caption}\n${"=".repeat(Array.from(caption).length)}`);
    for (const [wid, widget] of widgets) parts.push(captionOf(`${win}.${wid}`, widget.kind) + ":" + contentsOf(widget));
  }
  return `${parts.join("\n\n")}\n`;
}

function contentsOf(widget) {
  if (widget.kind === "text") return `\n${charactersOf(widget)}`;
  if (widget.kind === "list") return widget.items.map(({ value }) => `\n- ${value}`).join("");
  return ` ${settingOf(widget)}`;
}

const charactersOf = ({ items }) => items.map(({ value }) => String.fromCodePoint(value)).join("");
export const settingOf = ({ kind, value }) => (kind === "toggle" ? (value ? "on" : "off") : String(value));

// A text or a list as what a user copies of it.
export const copyOf = (widget) => (widget.kind === "text" ? charactersOf(widget) : widget.items.map(({ value }) => value).join("\n"));

export function asPrinted(board) {
  const lines = [];
  for (const [win, widgets] of board.windows) {
    lines.push(`window ${win}`);
    for (const [wid, widget] of widgets) lines.push([widget.kind, wid, ...printedWords(widget)].join(" "));
  }
  return lines.map((line) => `${line}\n`).join("");
}

function printedWords(widget) {
  if (widget.kind === "text") return [quoted(charactersOf(widget))];
  if (widget.kind === "list") return widget.items.map(({ value }) => quoted(value));
  return widget.kind === "toggle" ? [settingOf(widget)] : [widget.low, widget.high, widget.value];
}

// Each character has one spelling: those of a keyboard are themselves, and others have their number.
function quoted(text) {
  const spelled = Array.from(text, (it) => {
    if (it === '"' || it === "\\") return `\\${it}`;
    return it >= " " && it <= "~" ? it : `\\u{${it.codePointAt(0).toString(16)}}`;
  });
  return `"${spelled.join("")}"`;
}

export function asJson(board, captionOf) {
  const windows = Array.from(board.windows, ([id, widgets]) => ({
    id,
    caption: captionOf(String(id)),
    widgets: Array.from(widgets, ([wid, widget]) => ({ id: wid, kind: widget.kind, caption: captionOf(`${id}.${wid}`, widget.kind), ...fieldsOf(widget) })),
  }));
  return `${JSON.stringify({ windows }, null, 2)}\n`;
}

function fieldsOf(widget) {
  if (widget.kind === "text") return { value: charactersOf(widget) };
  if (widget.kind === "list") return { items: widget.items.map(({ value }) => value) };
  return widget.kind === "toggle" ? { value: widget.value } : { low: widget.low, high: widget.high, value: widget.value };
}
