// A list that keeps only the rows in view in the page.

// The height of a row in pixels; frame.css has the same.
const ROW = 62;
// The number of rows that are drawn above and below those in view.
const BESIDE = 8;

/** A listbox. `show.row` returns the content of a row. `show.chosen` is called when an item is chosen, `show.clicked`
 * when it is clicked, and `show.entered` on Enter. */
class RowList {
  constructor(box, show) {
    Object.assign(this, {box, show, items: [], at: -1});
    this.rows = make("div", {class: "rows", role: "presentation"});
    box.append(this.rows);
    box.addEventListener("scroll", () => this.draw());
    box.addEventListener("keydown", (event) => this.pressed(event));
    box.addEventListener("click", (event) => this.clicked(event));
    new ResizeObserver(() => this.draw()).observe(box);
  }

  /** Lists items. The item at this place is chosen, or none if the place is -1. */
  list(items, at) {
    const isMoved = at !== this.at;
    Object.assign(this, {items, at});
    this.rows.style.height = `${items.length * ROW}px`;
    if (isMoved) this.reveal();
    else this.draw();
  }

  /** Draws the rows in view. */
  draw() {
    const first = Math.max(0, Math.floor(this.box.scrollTop / ROW) - BESIDE);
    const last = Math.min(this.items.length, Math.ceil((this.box.scrollTop + this.box.clientHeight) / ROW) + BESIDE);
    const rows = [];
    for (let at = first; at < last; at += 1) rows.push(this.rowAt(at));
    this.rows.replaceChildren(...rows);
    if (this.at < 0) this.box.removeAttribute("aria-activedescendant");
    else this.box.setAttribute("aria-activedescendant", `${this.box.id}-${this.at}`);
  }

  /** Returns the row at a place. */
  rowAt(at) {
    const row = make("div", {
      id: `${this.box.id}-${at}`, class: "row", role: "option", "data-at": at,
      "aria-selected": at === this.at, "aria-setsize": this.items.length, "aria-posinset": at + 1,
    }, ...this.show.row(this.items[at]));
    row.style.top = `${at * ROW}px`;
    return row;
  }

  /** Chooses the item at a place. */
  choose(at) {
    this.at = at;
    this.reveal();
    this.show.chosen(this.items[at]);
  }

  /** Scrolls the chosen row into view, or the first row if none is chosen. */
  reveal() {
    const {box} = this, at = Math.max(0, this.at);
    if (at * ROW < box.scrollTop) box.scrollTop = at * ROW;
    else if ((at + 1) * ROW > box.scrollTop + box.clientHeight) box.scrollTop = (at + 1) * ROW - box.clientHeight;
    this.draw();
  }

  /** Chooses the row that was clicked. */
  clicked(event) {
    const row = event.target.closest(".row");
    if (row === null) return;
    this.choose(Number(row.dataset.at));
    this.show.clicked();
  }

  /** Chooses a row by a key. */
  pressed(event) {
    const {at} = this, last = this.items.length - 1;
    if (last < 0 || event.ctrlKey || event.altKey || event.metaKey) return;
    const page = Math.max(1, Math.floor(this.box.clientHeight / ROW) - 1);
    const places = {ArrowDown: at + 1, ArrowUp: at - 1, PageDown: at + page, PageUp: at - page, Home: 0, End: last};
    if (event.key in places) this.choose(Math.min(last, Math.max(0, places[event.key])));
    else if (event.key === "Enter" && at >= 0) this.show.entered(this.items[at]);
    else return;
    event.preventDefault();
  }
}
