// The picture as a whole: the log, what is in view, what is selected, and the two canvases.
import { Scale } from './scale.js';
import { lanesOf, rowPlace } from './layout.js';
import { Filter } from './filters.js';
import { paletteOf } from './palette.js';
import { paintLanes } from './painter.js';
import { paintHead, HEAD } from './paint_head.js';
import { nothingDrawn } from './frame.js';
import { namedBy, addHome, thingOf } from './names.js';

const GUTTER = 150;
const NARROW = 640; // below it, names stand over the lanes
const CLOSEST = 1e-3; // of a millisecond or an entry: no zoom shows less
const EDGE = 0.01;

export class Picture {
  constructor(page) {
    this.page = page;
    this.folded = new Set();
    this.areBarsShown = true;
    this.filter = new Filter();
    this.marks = []; // two entries at most, between which the time is told
    this.drawn = nothingDrawn();
    this.lit = new Set();
    this.entry = -1;
    this.thing = null;
    this.scroll = 0;
    this.tickPlaces = [];
    this.isAsked = false;
  }

  show(log, history) {
    this.folded.clear();
    this.filter.clear();
    this.marks = [];
    this.take(log, history);
    this.resize();
    this.arrange();
    this.fit();
  }

  take(log, history) {
    this.log = log;
    this.history = history;
    this.scale = new Scale(history.moments);
    this.jumpItems = history.jumps;
    this.refusalItems = history.jumps.filter((it) => it.kind === 'refusal');
    this.select(-1, null);
  }

  /** Another log in place of one that was changed a little: what is folded stays so, and the part in view where it is not the whole. */
  change(log, history) {
    const { axis } = this.scale;
    const { from, to } = this.view;
    const whole = this.wholeView();
    const isWhole = from <= whole.from && to >= whole.to;
    this.take(log, history);
    this.scale.setAxis(axis);
    this.marks = this.marks.filter((it) => it < log.count);
    this.arrange();
    if (isWhole) this.fit();
    else this.look(from, to);
  }

  resize() {
    const { scroll, lanes, head } = this.page;
    const ratio = window.devicePixelRatio || 1;
    this.width = scroll.clientWidth;
    this.height = scroll.clientHeight;
    this.gutter = this.width < NARROW ? 0 : GUTTER;
    for (const [canvas, height] of [[lanes, this.height], [head, HEAD]]) {
      canvas.width = Math.round(this.width * ratio);
      canvas.height = Math.round(height * ratio);
      canvas.style.width = this.width + 'px';
      canvas.style.height = height + 'px';
      canvas.getContext('2d').setTransform(ratio, 0, 0, ratio, 0, 0);
    }
    this.palette = paletteOf(lanes.getContext('2d'), ratio);
    this.ask();
  }

  isFolded(pool) {
    return !this.areBarsShown || this.folded.has(pool.number);
  }

  arrange() {
    const { lanes, height } = lanesOf(this.history, this);
    this.lanes = lanes;
    this.page.space.style.height = Math.max(height, this.height) + 'px';
    this.ask();
  }

  fold(pool) {
    if (!this.folded.delete(pool.number)) this.folded.add(pool.number);
    this.arrange();
  }

  get factor() {
    return (this.width - this.gutter) / (this.view.to - this.view.from);
  }

  placeAt(x) {
    return this.view.from + (x - this.gutter) / this.factor;
  }

  wholeView() {
    const [from, to] = this.scale.extent();
    const margin = Math.max((to - from) * EDGE, CLOSEST);
    return { from: from - margin, to: to + margin };
  }

  fit() {
    const { from, to } = this.wholeView();
    this.look(from, to);
  }

  /** Sets the view, within the log and not closer than can be told apart. */
  look(from, to) {
    const [first, last] = this.scale.extent();
    const margin = (last - first) * EDGE + CLOSEST;
    const most = last - first + 2 * margin;
    const closest = Math.max(CLOSEST * 50, Math.abs(last) * 1e-13);
    const width = Math.min(Math.max(to - from, closest), most);
    const start = Math.min(Math.max(from, first - margin), last + margin - width);
    this.view = { from: start, to: start + width };
    this.ask();
  }

  zoom(times, x) {
    const place = this.placeAt(x ?? this.gutter + (this.width - this.gutter) / 2);
    const width = (this.view.to - this.view.from) / times;
    const share = (place - this.view.from) / (this.view.to - this.view.from);
    this.look(place - share * width, place - share * width + width);
  }

  pan(pixels) {
    const shift = pixels / this.factor;
    this.look(this.view.from + shift, this.view.to + shift);
  }

  setAxis(axis) {
    if (axis === this.scale.axis) return;
    const from = this.scale.entryAt(this.view.from);
    const to = this.scale.entryAt(this.view.to);
    const isWhole = from === 0 && to >= this.scale.count - 1;
    this.scale.setAxis(axis);
    if (isWhole) this.fit();
    else this.look(this.scale.at(from), this.scale.at(to));
  }

  /** Selects an entry, and perhaps the thing that it is about; all that the entry names is lit. */
  select(entry, thing) {
    this.entry = entry;
    this.thing = thing;
    this.lit = entry < 0 ? new Set() : namedBy(this.history, this.log, entry);
    if (thing !== null) {
      this.lit.add(thing);
      addHome(this.history, this.lit, thing);
    }
    this.ask();
  }

  /** Brings the selected entry into view. */
  reveal() {
    const place = this.scale.at(this.entry);
    const { from, to } = this.view;
    const inner = (to - from) * 0.05;
    if (place < from + inner || place > to - inner) this.look(place - (to - from) / 2, place + (to - from) / 2);
  }

  /** Brings a height of the picture into view. */
  revealHeight(y, height) {
    const { scroll } = this.page;
    if (y < scroll.scrollTop) scroll.scrollTop = y - 20;
    else if (y + height > scroll.scrollTop + this.height) scroll.scrollTop = y + height - this.height + 20;
  }

  /** The point of the canvas where a connection, a request, a server or a pool is drawn at an entry. */
  where(kind, key, entry) {
    const thing = thingOf(this.history, { kind, key });
    const bars = { connection: 'connections', party: 'requests' }[kind];
    const isLane = (it) => (kind === 'pool' ? it.kind === 'pool' && it.pool === thing : it.kind === 'server' && it.server === thing);
    const at = bars !== undefined ? rowPlace(this.lanes, bars, thing) : this.lanes.find(isLane);
    const box = this.page.lanes.getBoundingClientRect();
    const x = this.gutter + (this.scale.at(entry) - this.view.from) * this.factor;
    return { x: box.left + x, y: box.top + at.y + (bars !== undefined ? at.height / 2 : 12) - this.scroll };
  }

  /** Marks an entry; a third mark is the first of two again. */
  mark(entry) {
    this.marks = this.marks.length === 2 ? [entry] : [...this.marks, entry].sort((one, other) => one - other);
    this.ask();
  }

  /** Asks for one painting before the next frame. */
  ask() {
    if (this.isAsked) return;
    this.isAsked = true;
    requestAnimationFrame(() => this.paint());
  }

  paint() {
    this.isAsked = false;
    if (this.log === undefined || this.view === undefined) return;
    this.scroll = this.page.scroll.scrollTop;
    paintHead(this.page.head.getContext('2d'), this);
    this.drawn = paintLanes(this.page.lanes.getContext('2d'), this);
  }
}
