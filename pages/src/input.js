// Wheel, pointers, touch and keys.
import { pick, stopsOf, nearestStop } from './stops.js';
import { Overview, OVERVIEW } from './paint_head.js';

const WHEEL = 0.0016; // how much one unit of a wheel zooms
const STEP = 1.3; // how much a key zooms
const LINE = 60; // pixels of a key's pan or scroll
const CLICK = 5; // a pointer that moved less is a click
const SCROLLING = new Set(['ArrowUp', 'ArrowDown', 'PageUp', 'PageDown', 'Home', 'End']);

function wheelPixels(event, height) {
  return [1, 16, height][event.deltaMode];
}

/** A button takes Enter, a choice takes the arrows, and what scrolls takes the keys that scroll. */
function isAnswered(event) {
  const at = event.target;
  if (at instanceof HTMLButtonElement) return event.key === 'Enter';
  if (at instanceof HTMLInputElement) return event.key.startsWith('Arrow') || event.key === 'Enter';
  return at instanceof Element && at.closest('aside, dialog') !== null && SCROLLING.has(event.key);
}

export class Input {
  constructor(page, picture, app) {
    this.page = page;
    this.picture = picture;
    this.app = app;
    this.pointers = new Map();
    this.row = null; // { lane, row } where the keys are
    page.scroll.addEventListener('wheel', (event) => this.wheel(event), { passive: false });
    page.head.addEventListener('wheel', (event) => this.zoomBy(event, event.deltaY), { passive: false });
    page.scroll.addEventListener('scroll', () => picture.ask());
    for (const [name, act] of [['pointerdown', this.down], ['pointermove', this.moved], ['pointerup', this.up], ['pointercancel', this.left]]) {
      page.lanes.addEventListener(name, (event) => act.call(this, event));
    }
    page.lanes.addEventListener('pointerleave', () => app.tip(null));
    page.lanes.addEventListener('dblclick', (event) => picture.zoom(3, this.place(event).x));
    page.head.addEventListener('pointerdown', (event) => this.grasp(event));
    page.head.addEventListener('pointermove', (event) => this.dragWindow(event));
  }

  place(event) {
    const box = this.page.lanes.getBoundingClientRect();
    return { x: event.clientX - box.left, y: event.clientY - box.top };
  }

  zoomBy(event, delta) {
    if (!this.picture.log) return;
    event.preventDefault();
    this.picture.zoom(Math.exp(-delta * WHEEL * wheelPixels(event, 400)), this.place(event).x);
  }

  /** Alone a wheel scrolls down, or zooms where all lanes are in view; with Ctrl, Command or Alt it zooms; with Shift, or sideways, it pans. */
  wheel(event) {
    if (!this.picture.log) return;
    const unit = wheelPixels(event, this.picture.height);
    if (event.ctrlKey || event.metaKey || event.altKey) this.zoomBy(event, event.deltaY * (event.ctrlKey && Math.abs(event.deltaY) < 20 ? 6 : 1));
    else if (event.shiftKey || Math.abs(event.deltaX) > Math.abs(event.deltaY)) {
      event.preventDefault();
      this.picture.pan((event.deltaX || event.deltaY) * unit);
    } else if (this.page.scroll.scrollHeight <= this.page.scroll.clientHeight + 1) this.zoomBy(event, event.deltaY);
  }

  down(event) {
    if (!this.picture.log || event.button > 0) return;
    this.page.lanes.setPointerCapture(event.pointerId);
    this.pointers.set(event.pointerId, { ...this.place(event), from: this.place(event), far: 0 });
  }

  moved(event) {
    const at = this.place(event);
    const before = this.pointers.get(event.pointerId);
    if (before === undefined) {
      if (this.picture.log) this.app.tip(pick(this.picture, at.x, at.y), event);
      return;
    }
    const others = [...this.pointers].filter(([number]) => number !== event.pointerId);
    before.far = Math.max(before.far, Math.hypot(at.x - before.from.x, at.y - before.from.y));
    if (others.length > 0) this.pinch(before, at, others[0][1]);
    else if (before.far >= CLICK) {
      this.picture.pan(before.x - at.x);
      if (event.pointerType === 'mouse') this.page.scroll.scrollTop += before.y - at.y;
    }
    Object.assign(before, at);
  }

  /** Two pointers: their distance zooms, and their middle pans. */
  pinch(before, at, other) {
    const was = Math.max(20, Math.hypot(before.x - other.x, before.y - other.y));
    const is = Math.max(20, Math.hypot(at.x - other.x, at.y - other.y));
    this.picture.pan((before.x - at.x) / 2);
    this.picture.zoom(is / was, (at.x + other.x) / 2);
    other.far = CLICK;
    before.far = CLICK;
  }

  up(event) {
    const pointer = this.pointers.get(event.pointerId);
    this.pointers.delete(event.pointerId);
    if (pointer === undefined || pointer.far >= CLICK) return;
    const { x, y } = this.place(event);
    this.click(pick(this.picture, x, y), x);
  }

  left(event) {
    this.pointers.delete(event.pointerId);
  }

  click(found, x) {
    const { picture } = this;
    if (found === null) return;
    this.row = { lane: found.lane, row: found.row };
    if (found.lane.kind === 'pool' && (x < picture.gutter || (picture.gutter === 0 && x < 60 && found.stop === null))) {
      picture.fold(found.lane.pool);
      return;
    }
    const entry = found.stop === null ? picture.scale.nearest(found.place) : found.stop.entry;
    this.app.go(entry, found.stop === null ? this.laneThing(found.lane) : found.stop.thing, false);
  }

  laneThing(lane) {
    if (lane.kind === 'server') return lane.server;
    return lane.kind === 'pool' ? lane.pool : null;
  }

  grasp(event) {
    if (!this.picture.log) return;
    this.page.head.setPointerCapture(event.pointerId);
    this.dragWindow(event);
  }

  /** The middle of the view goes where the pointer is on the small picture; below it, on the axis, it pans. */
  dragWindow(event) {
    if (event.buttons !== 1 || !this.picture.log) return;
    const box = this.page.head.getBoundingClientRect();
    if (event.type === 'pointerdown') this.isOnOverview = event.clientY - box.top < OVERVIEW;
    const { from, to } = this.picture.view;
    if (this.isOnOverview) {
      const place = new Overview(this.picture).placeAt(event.clientX - box.left);
      this.picture.look(place - (to - from) / 2, place + (to - from) / 2);
    } else this.picture.pan(-event.movementX);
  }

  /** Keys of the picture, wherever the focus is but on a control that answers the key itself. The app asks, after its own. */
  key(event) {
    if (!this.picture.log || this.picture.log.count === 0 || isAnswered(event)) return;
    const act = (event.shiftKey ? this.shifted() : this.plain())[event.key];
    if (act === undefined) return;
    event.preventDefault();
    act();
  }

  shifted() {
    const { picture, page } = this;
    return {
      ArrowLeft: () => picture.pan(-LINE), ArrowRight: () => picture.pan(LINE),
      ArrowUp: () => page.scroll.scrollBy(0, -LINE), ArrowDown: () => page.scroll.scrollBy(0, LINE),
      '+': () => picture.zoom(STEP), '*': () => picture.zoom(STEP),
    };
  }

  plain() {
    const { picture, page, app } = this;
    return {
      ArrowLeft: () => this.toStop(-1), ArrowRight: () => this.toStop(1), ArrowUp: () => this.toRow(-1), ArrowDown: () => this.toRow(1),
      a: () => picture.pan(-LINE), d: () => picture.pan(LINE), w: () => picture.zoom(STEP), s: () => picture.zoom(1 / STEP),
      '+': () => picture.zoom(STEP), '=': () => picture.zoom(STEP), '-': () => picture.zoom(1 / STEP), 0: () => picture.fit(), f: () => picture.fit(),
      PageUp: () => page.scroll.scrollBy(0, -picture.height * 0.8), PageDown: () => page.scroll.scrollBy(0, picture.height * 0.8),
      ',': () => app.step(-1), '.': () => app.step(1), Home: () => app.go(0, null), End: () => app.go(picture.log.count - 1, null),
      Enter: () => this.fold(),
    };
  }

  /** The row where the keys are; at first the topology. A picture that was arranged anew has other lanes. */
  here() {
    const { lanes } = this.picture;
    const lane = this.row === null ? undefined : lanes.find((it) => it.kind === this.row.lane.kind && it.pool === this.row.lane.pool && it.server === this.row.lane.server);
    return lane === undefined ? { lane: lanes[0], row: 0 } : { lane, row: Math.min(this.row.row, lane.rows.length - 1) };
  }

  /** Shows or hides the bars of the pool where the keys are, which are then at the pool itself. */
  fold() {
    const { picture } = this;
    const { pool } = this.here().lane;
    if (pool === undefined) return;
    picture.fold(pool);
    this.row = { lane: picture.lanes.find((it) => it.kind === 'pool' && it.pool === pool), row: 0 };
  }

  toStop(by) {
    const { picture } = this;
    this.row = this.here();
    const stops = stopsOf(picture.history, this.row.lane, this.row.row);
    if (stops.length === 0) return;
    const own = stops.findIndex((it) => it.entry === picture.entry && it.thing === picture.thing);
    const near = nearestStop(stops, picture.scale, picture.scale.at(Math.max(picture.entry, 0))).at;
    this.choose(stops[Math.min(Math.max(own < 0 ? near : own + by, 0), stops.length - 1)]);
  }

  toRow(by) {
    const { picture } = this;
    const { lanes } = picture;
    const { lane, row } = this.here();
    const at = lanes.indexOf(lane);
    if (row + by >= 0 && row + by < lane.rows.length) this.row = { lane, row: row + by };
    else if (lanes[at + by] !== undefined) this.row = { lane: lanes[at + by], row: by > 0 ? 0 : lanes[at + by].rows.length - 1 };
    else this.row = { lane, row };
    const stops = stopsOf(picture.history, this.row.lane, this.row.row);
    const place = picture.entry < 0 ? (picture.view.from + picture.view.to) / 2 : picture.scale.at(picture.entry);
    if (stops.length > 0) this.choose(stops[nearestStop(stops, picture.scale, place).at]);
  }

  choose(stop) {
    this.app.go(stop.entry, stop.thing);
    this.picture.revealHeight(this.row.lane.y + this.row.row * this.row.lane.rowHeight, this.row.lane.rowHeight);
  }
}
