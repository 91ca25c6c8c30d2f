// The menu of the page: the board as a file, on paper, and the keys. And the line of a first visit.
import { asJson, asPrinted, asText } from "./files.js";
import { found, make } from "./view.js";

// Where the browser keeps that the first line was read.
const SEEN = "gidzvruka seen";

// `page` has the board and the captions.
export function openMenu(page, isTelling) {
  const captionOf = (key, kind) => page.captionOf(key, kind);
  const files = {
    "Download as text": () => download("board.txt", "text/plain", asText(page.board, captionOf)),
    "Download the printed board": () => download("board.board", "text/plain", asPrinted(page.board)),
    "Download as JSON": () => download("board.json", "application/json", asJson(page.board, captionOf)),
    Print: () => print(),
    "Forget this board on this device": () => page.keeping.forget(),
  };
  const buttons = Object.entries(files).map(([name, click]) => make("button", { type: "button", textContent: name, click: () => (found("menu").hidePopover(), click()) }));
  const tells = make("input", { type: "checkbox", checked: true, id: "tells", change: () => isTelling(tells.checked) });
  found("menu-own").append(...buttons, make("p", { className: "check" }, tells, make("label", { htmlFor: "tells", textContent: "Say to screen readers what others change" })));
  document.addEventListener("keydown", (event) => event.key === "?" && !isTyping(event.target) && found("menu").showPopover());
  addEventListener("beforeprint", () => toPaper(page));
  addEventListener("afterprint", () => document.querySelectorAll("pre.paper").forEach((it) => it.remove()));
  welcome();
}

const isTyping = (element) => element.matches("textarea, input:not([type=checkbox], [type=range])");

function download(name, type, text) {
  const href = URL.createObjectURL(new Blob([text], { type: `${type};charset=utf-8` }));
  make("a", { href, download: name }).click();
  setTimeout(() => URL.revokeObjectURL(href), 60000);
}

// An area on paper would show only what fits into it.
function toPaper(page) {
  for (const view of page.views.values()) view.area?.after(make("pre", { className: "paper", dir: "auto", textContent: view.area.value }));
}

function welcome() {
  const seen = (step) => {
    try {
      return step(localStorage);
    } catch {
      return null; // The browser keeps nothing for this page.
    }
  };
  found("welcome").hidden = seen((store) => store.getItem(SEEN)) !== null;
  found("welcome-close").addEventListener("click", () => {
    found("welcome").hidden = true;
    seen((store) => store.setItem(SEEN, "yes"));
    found("title").focus();
  });
}
