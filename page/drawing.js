// When views are drawn.
import { later } from "./link.js";

// Drawing takes at most a third of the time. These bound the milliseconds between two draws.
const SHARE = 3;
const SHORTEST_PAUSE = 16;
const LONGEST_PAUSE = 500;

export class Drawing {
  #views;
  #timer = null; // of the next draw
  #drawnAt = 0;
  #pause = SHORTEST_PAUSE;

  // Of a map of views.
  constructor(views) {
    this.#views = views;
  }

  // Draws now, or after a pause if it drew a moment ago.
  soon() {
    if (this.#timer !== null) return;
    const wait = this.#drawnAt + this.#pause - performance.now();
    if (wait <= 0) this.now();
    else this.#timer = setTimeout(() => this.now(), wait);
  }

  now() {
    clearTimeout(this.#timer);
    this.#timer = null;
    const stale = [...this.#views.values()].filter((view) => view.isStale);
    if (stale.length === 0) return;
    const begun = performance.now();
    for (const view of stale) view.update();
    this.#drawnAt = performance.now();
    // The task that follows the next frame knows what its layout took.
    requestAnimationFrame((frame) => later(() => this.#pauseFor(this.#drawnAt - begun + performance.now() - frame)));
  }

  #pauseFor(cost) {
    this.#pause = Math.min(LONGEST_PAUSE, Math.max(SHORTEST_PAUSE, SHARE * cost));
  }
}
