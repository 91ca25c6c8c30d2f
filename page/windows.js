// The windows of a board, and a view of each of their widgets.
import { ListView } from "./list_view.js";
import { SliderView, ToggleView } from "./setting_views.js";
import { TextView } from "./text_view.js";
import { readCaptions } from "./texts.js";
import { arrange, found, make } from "./view.js";

const VIEWS = { text: TextView, list: ListView, toggle: ToggleView, slider: SliderView };
const KINDS = { text: "Text", list: "List", toggle: "Toggle", slider: "Slider" };
// What a board without widgets says.
const EMPTY = "Nothing here yet";
const ADVICE = "Whoever runs this server adds texts, lists, toggles and sliders: stop it, write lines such as these into the file of the board, and start it again.";
const EXAMPLE = 'window 1\ntext 1 "Hi"\nlist 2 "bread" "milk"\ntoggle 3 off\nslider 4 0 10 5';

export class Windows {
  views = new Map(); // by keys like "1.2": the ids of the window and of the widget
  #page;
  #captions;
  #sections = new Map(); // by the ids of their windows

  constructor(page, captions) {
    this.#page = page;
    this.#captions = readCaptions(captions);
  }

  captionOf(key, kind) {
    return this.#captions.get(key) ?? `${KINDS[kind] ?? "Window"} ${key.split(".").at(-1)}`;
  }

  // The server has these captions now.
  caption(text) {
    this.#captions = readCaptions(text);
    for (const view of this.views.values()) view.named();
    this.#name();
  }

  // Shows a board. The view of a widget that was there stays. `isSame` is whether items have the names that they had.
  show(board, isSame) {
    const before = new Map(this.views);
    this.views.clear();
    const sections = Array.from(board.windows, ([win, widgets]) => this.#window(win, widgets, before, isSame));
    for (const [key, view] of before) if (this.views.get(key) !== view) this.#drop(view);
    arrange(found("board"), this.views.size > 0 ? sections : [this.#nothing()]);
    this.#name();
  }

  #window(win, widgets, before, isSame) {
    const heading = make("h2", { id: `window-${win}`, dir: "auto" });
    const section = this.#sections.get(win) ?? make("section", { "aria-labelledby": heading.id }, heading);
    this.#sections.set(win, section);
    const views = Array.from(widgets, ([wid, widget]) => this.#view(win, wid, widget, before, isSame));
    arrange(section, [section.firstChild, ...views.map(({ element }) => element)]);
    return section;
  }

  #view(win, wid, widget, before, isSame) {
    const shape = ({ kind, low, high }) => [kind, low, high].join();
    const key = `${win}.${wid}`;
    const old = before.get(key);
    const isKept = old !== undefined && shape(old.widget) === shape(widget);
    const view = isKept ? old : new VIEWS[widget.kind](this.#page, win, wid, widget);
    if (isKept) view.rebind(widget, isSame);
    this.views.set(key, view);
    return view;
  }

  // The board has this widget no more. What is typed there is offered.
  #drop(view) {
    const { notices } = this.#page;
    for (const text of view.drafts) notices.add({ words: view.name.textContent, text });
    notices.adopt(view.element);
    view.close();
  }

  #nothing() {
    return make("section", {}, make("h2", { textContent: EMPTY }), make("p", { textContent: ADVICE }), make("pre", { textContent: EXAMPLE }));
  }

  // Names the windows, and the page after the first of them.
  #name() {
    const wins = [...this.#page.board.windows.keys()];
    for (const win of wins) this.#sections.get(win).firstChild.textContent = this.captionOf(String(win));
    found("title").textContent = this.#captions.get(String(wins[0])) ?? "Board";
    document.title = found("title").textContent;
  }
}
