// Long lists of entries to jump to: only the rows in view are in the page.
import { element } from './element.js';
import { evenTops, rowAt, wrappedTops } from './row_tops.js';

const SHAPE = { most: 230 }; // pixels of the list; rows have the height of their texts where no other is said
const MORE = 4; // rows above and below those in view

export class JumpList {
  constructor(box, label, go, shape = SHAPE) {
    this.box = box;
    this.shape = shape;
    this.go = go;
    this.items = [];
    this.active = -1;
    this.tops = evenTops(0, 0);
    this.inner = element('div', { className: 'rows' });
    box.replaceChildren(this.inner);
    box.tabIndex = 0;
    box.setAttribute('role', 'listbox');
    box.setAttribute('aria-label', label);
    box.addEventListener('scroll', () => this.draw());
    box.addEventListener('keydown', (event) => this.key(event));
    new ResizeObserver(() => this.resize()).observe(box);
  }

  show(items) {
    this.items = items;
    this.active = -1;
    this.box.hidden = items.length === 0;
    this.place();
    this.draw();
  }

  /** Gives each row its place. */
  place() {
    const { row, most } = this.shape;
    const texts = () => this.items.map((it) => `${it.label} ${it.text}`);
    this.width = this.box.clientWidth;
    this.tops = row === undefined ? wrappedTops(texts(), this.width, getComputedStyle(this.inner).font) : evenTops(this.items.length, row);
    const whole = this.tops[this.items.length];
    this.inner.style.height = whole + 'px';
    if (most < Infinity) this.box.style.height = Math.min(whole + 2, most) + 'px';
  }

  resize() {
    if (this.box.clientWidth !== this.width && this.shape.row === undefined) this.place();
    this.draw();
  }

  draw() {
    const { scrollTop, clientHeight } = this.box;
    const from = Math.max(0, rowAt(this.tops, scrollTop) - MORE);
    const to = Math.min(this.items.length, rowAt(this.tops, scrollTop + clientHeight) + 1 + MORE);
    this.inner.replaceChildren();
    for (let at = from; at < to; at += 1) this.inner.append(this.row(at));
    if (this.active >= 0) this.box.setAttribute('aria-activedescendant', `${this.box.id}-${this.active}`);
    else this.box.removeAttribute('aria-activedescendant');
  }

  /** A row without its words. */
  frame(at) {
    const item = this.items[at];
    const row = element('div', { id: `${this.box.id}-${at}`, className: 'row', title: item.text, onclick: () => this.pick(at) });
    row.setAttribute('role', 'option');
    row.setAttribute('aria-selected', String(at === this.active));
    row.setAttribute('aria-posinset', String(at + 1));
    row.setAttribute('aria-setsize', String(this.items.length));
    row.style.top = this.tops[at] + 'px';
    row.style.height = this.tops[at + 1] - this.tops[at] + 'px';
    return row;
  }

  row(at) {
    const item = this.items[at];
    const row = this.frame(at);
    if (item.kind !== undefined) row.append(element('span', { className: 'sign ' + item.kind.replace(' ', '-'), textContent: item.sign }));
    row.append(element('span', { className: 'number', textContent: item.label }), ' ', item.text);
    return row;
  }

  /** What is selected elsewhere is marked here too, where it is in the list. */
  follow(entry) {
    if (this.items[this.active]?.entry === entry) return;
    this.active = this.items.findIndex((it) => it.entry === entry);
    this.draw();
  }

  reveal(at) {
    const [top, end] = this.tops.slice(at, at + 2);
    if (top < this.box.scrollTop) this.box.scrollTop = top;
    else if (end > this.box.scrollTop + this.box.clientHeight) this.box.scrollTop = end - this.box.clientHeight;
  }

  pick(at) {
    this.active = at;
    this.reveal(at);
    this.draw();
    this.go(this.items[at]);
  }

  key(event) {
    const last = this.items.length - 1;
    const next = { ArrowDown: this.active + 1, ArrowUp: this.active - 1, Home: 0, End: last, PageDown: this.active + 8, PageUp: this.active - 8, Enter: this.active }[event.key];
    if (next === undefined || last < 0) return;
    event.preventDefault();
    event.stopPropagation();
    this.pick(Math.min(Math.max(next, 0), last));
  }
}
