// Long tables: only the rows in sight, and some around them, are made. By keys a table is one stop, at one of its rows.

import { make, rowOf } from "./parts.js";

const SPARE = 10, MOST_PRINTED = 2000;
const tables = [];
let isPrinting = false;

export const headsOf = (names, widths = []) => names.map((name, at) => make("th", name, { scope: "col", className: widths[at] || "" }));

export class LongTable {
  // A box that scrolls, the heads of the columns, and what makes the row of an item.
  constructor(box, heads, makeRow) {
    Object.assign(this, { box, makeRow, items: [], rows: new Map(), height: 30, stop: 0 });
    this.table = make("table");
    this.head = this.table.createTHead().insertRow();
    this.head.append(...heads);
    this.above = this.table.createTBody();
    this.body = this.table.createTBody();
    this.below = this.table.createTBody();
    box.replaceChildren(this.table);
    box.tabIndex = -1;
    box.onscroll = () => this.draw();
    box.addEventListener("keydown", event => this.step(event));
    this.body.addEventListener("focusin", event => this.stopAt(Number(event.target.closest("tr").ariaRowIndex) - 2));
    new ResizeObserver(() => this.draw()).observe(box);
    tables.push(this);
  }

  // Whoever was at a link is at the same link, or at the table; what is shown again stays where it was.
  show(items) {
    const at = this.body.contains(document.activeElement) && document.activeElement.href, top = items === this.items ? this.box.scrollTop : 0;
    if (items !== this.items) this.stop = 0;
    this.items = items;
    this.rows.clear();
    this.body.replaceChildren();
    this.box.scrollTop = top;
    this.table.setAttribute("aria-rowcount", items.length + 1);
    this.draw();
    if (at) ([...this.body.querySelectorAll("a")].find(link => link.href === at) || this.box).focus({ preventScroll: true });
  }

  // A table that is hidden is drawn once it is shown.
  draw() {
    this.width = this.box.clientWidth;
    if (!this.width) return;
    const first = isPrinting ? 0 : Math.max(Math.floor(this.box.scrollTop / this.height) - SPARE, 0);
    const last = Math.min(isPrinting ? MOST_PRINTED : first + Math.ceil(this.box.clientHeight / this.height) + 2 * SPARE, this.items.length);
    for (const [at, row] of this.rows) if ((at < first || at >= last) && !row.contains(document.activeElement)) this.rows.delete(at), row.remove();
    let behind = null;
    for (let at = last - 1; at >= first; at--) {
      const row = this.rows.get(at) || this.makeAt(at);
      if (row.nextSibling !== behind || !row.isConnected) this.body.insertBefore(row, behind);
      behind = row;
    }
    if (!this.rows.has(this.stop)) this.stopAt(Math.min(first + (first && SPARE), last - 1));
    this.measure();
    this.spread(this.above, first);
    this.spread(this.below, this.items.length - last, isPrinting);
  }

  makeAt(at) {
    const row = this.makeRow(this.items[at]);
    row.setAttribute("aria-rowindex", at + 2);
    this.rows.set(at, row);
    this.reach(at, at === this.stop);
    return row;
  }

  stopAt(at) {
    this.reach(this.stop, false);
    this.stop = at;
    this.reach(at, true);
  }

  reach(at, can) {
    for (const link of this.rows.get(at)?.querySelectorAll("a") || []) link.tabIndex = can ? 0 : -1;
  }

  measure() {
    const row = this.body.rows[0];
    if (row && row.offsetHeight) this.height = row.offsetHeight;
  }

  // Room for the rows that are not made, or on paper how many they are.
  spread(part, count, isTold = false) {
    if (!count) return part.replaceChildren();
    const row = part.rows[0] || part.appendChild(rowOf([""])), cell = row.cells[0];
    row.setAttribute("aria-hidden", "true");
    cell.colSpan = this.head.cells.length;
    cell.textContent = isTold ? `${count} more, which are not printed` : "";
    cell.style.cssText = isTold ? "" : `height: ${count * this.height}px; padding: 0; border: 0`;
  }

  // The arrow keys go from row to row, and stay in their column.
  step(event) {
    const by = { ArrowDown: 1, ArrowUp: -1 }[event.key], row = event.target.closest("tr");
    if (!by || row?.parentNode !== this.body) return;
    event.preventDefault();
    const next = by > 0 ? row.nextSibling : row.previousSibling, column = [...row.querySelectorAll("a")].indexOf(event.target);
    next?.querySelectorAll("a")[column]?.focus();
  }
}

function prints(now) {
  isPrinting = now;
  for (const table of tables) table.draw();
}

window.onbeforeprint = () => prints(true);
window.onafterprint = () => prints(false);
