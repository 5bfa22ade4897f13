// Bars of connections: where each was from when on, with whom, and why it was closed.
import { PENDING, AVAILABLE, HELD } from './things.js';
import { firstBar } from './layout.js';
import { CHARACTER } from './frame.js';
import { FINE, MARGIN, roomBehind, rim } from './bars.js';

const SMALL = 12; // pixels; a bar below that ends in a thin line
const HATCHED = 4; // pixels from which on a hatch can be seen

function paintPlace(frame, place, x0, x1, y, height) {
  const { palette } = frame;
  if (place === AVAILABLE) frame.box(palette.available, x0, x1, y + height / 2 - 2, 4);
  else if (place === PENDING) frame.box(x1 - x0 < HATCHED ? palette.pending : palette.pendingHatch, x0, x1, y, height);
  else if (place === HELD) frame.box(palette.held, x0, x1, y, height);
  else frame.box(x1 - x0 < HATCHED ? palette.pinned : palette.pinnedHatch, x0, x1, y, height);
}

/** Short stretches, of which the longest place is drawn for all; neighbours of one place are one box. */
class Bucket {
  constructor(frame, y, height) {
    Object.assign(this, { frame, y, height });
    this.shares = [0, 0, 0, 0];
    this.from = -1;
    this.to = -1;
    this.run = { place: -1, from: 0, to: 0 };
  }

  add(place, x0, x1) {
    if (this.from < 0) this.from = x0;
    this.shares[place] += x1 - x0;
    this.to = x1;
    if (this.to - this.from >= 2) this.close();
  }

  /** The stretches so far have one place, and join the box before where that has it too. */
  close() {
    if (this.from < 0) return;
    const { shares, run } = this;
    let most = 0;
    for (let at = 1; at < shares.length; at += 1) if (shares[at] > shares[most]) most = at;
    if (run.place === most) run.to = this.to;
    else {
      this.paint();
      Object.assign(run, { place: most, from: this.from, to: this.to });
    }
    shares.fill(0);
    this.from = -1;
  }

  paint() {
    const { run } = this;
    if (run.place >= 0) paintPlace(this.frame, run.place, run.from, run.to, this.y, this.height);
    run.place = -1;
  }

  flush() {
    this.close();
    this.paint();
  }
}

/** The party in the middle of what is seen of its stretch, but not where the connection's name stands. */
function partyLabel(frame, bar, at, x0, x1, y) {
  const words = String(bar.parties[at]);
  const [from, to] = frame.inside(x0, x1);
  const start = Math.max(from, frame.namedTo);
  if (bar.parties[at] >= 0 && to - start >= words.length * CHARACTER) frame.text(words, (start + to - words.length * CHARACTER) / 2, y, frame.palette.onheld);
}

const FEW = 8; // stretches of a narrow bar that are worth painting each

/** The place that a connection had longest, along the axis; kept with the connection. */
function mainPlace(frame, bar) {
  const { axis, places } = frame.scale;
  if (bar.main?.axis === axis) return bar.main.place;
  const shares = [0, 0, 0, 0];
  bar.entries.forEach((entry, at) => {
    const to = at + 1 < bar.entries.length ? places[bar.entries[at + 1]] : bar.end < 0 ? frame.stop : places[bar.end];
    shares[bar.places[at]] += to - places[entry];
  });
  bar.main = { axis, place: shares.indexOf(Math.max(...shares)) };
  return bar.main.place;
}

function paintStretches(frame, bar, [from, to], y, height) {
  if (to - from < 2 * FINE && bar.entries.length > FEW) {
    frame.drawn.stretches += bar.entries.length;
    paintPlace(frame, mainPlace(frame, bar), from, to, y, height);
  } else paintEachStretch(frame, bar, y, height);
}

function paintEachStretch(frame, bar, y, height) {
  const bucket = new Bucket(frame, y, height);
  const { entries, places } = bar;
  let at = Math.max(0, bar.stretchAt(frame.firstEntry));
  let x0 = frame.x(entries[at]);
  for (; at < entries.length && x0 <= frame.right; at += 1) {
    const x1 = at + 1 < entries.length ? frame.x(entries[at + 1]) : frame.endX(bar.end);
    frame.drawn.stretches += 1;
    if (x1 - x0 < FINE) bucket.add(places[at], x0, x1);
    else {
      bucket.flush();
      paintStretch(frame, bar, at, [x0, x1], y, height);
    }
    x0 = x1;
  }
  bucket.flush();
}

/** A stretch of its own; between two parties a gap is left. */
function paintStretch(frame, bar, at, [x0, x1], y, height) {
  const isHandedOn = at > 0 && bar.places[at] === HELD && bar.places[at - 1] === HELD && x1 - x0 >= 4;
  paintPlace(frame, bar.places[at], isHandedOn ? x0 + 1 : x0, x1, y, height);
  if (bar.places[at] === HELD) partyLabel(frame, bar, at, x0, x1, y + height - 3);
}

function paintEnd(frame, bars, at, y, height) {
  const bar = bars[at];
  if (bar.end < 0) return;
  const x = frame.x(bar.end);
  if (x < frame.left - 1 || x > frame.right + 1) return;
  const colour = bar.reason === 'Error' ? frame.palette.bad : bar.reason === 'Stale' ? frame.palette.warn : frame.palette.ink;
  const isSmall = x - frame.x(bar.start) < SMALL;
  frame.box(colour, isSmall ? x : x - 1, isSmall ? x + 1 : x + 2, y - 1, height + 2);
  frame.drawn.ends += 1;
  if (roomBehind(frame, bars, at) > bar.reason.length * CHARACTER + 10) frame.text(bar.reason, x + 5, y + height - 3, colour, true);
}

/** Where its name stands: behind the stretch in which it was pending, which is to be seen; nothing where there is no room. */
function nameSpan(frame, bar, x0, x1) {
  const width = bar.name.length * CHARACTER;
  const settled = bar.places[0] === PENDING && bar.entries.length > 1 ? frame.x(bar.entries[1]) : x0;
  const [from, to] = frame.inside(settled, x1);
  return to - from < width + 2 ? null : { from, width };
}

function paintConnection(frame, bar, [x0, x1], y, height) {
  const span = nameSpan(frame, bar, x0, x1);
  frame.namedTo = span === null ? -Infinity : span.from + span.width + 4;
  paintStretches(frame, bar, [x0, x1], y, height);
  if (span === null) return;
  frame.pen.fillStyle = frame.palette.page;
  frame.pen.fillRect(span.from - 2, y + height - 12, span.width + 4, 11);
  frame.text(bar.name, span.from, y + height - 3, frame.palette.ink);
}

export function paintConnections(frame, bars, y, rowHeight) {
  const height = rowHeight - 2 * MARGIN;
  let drawnTo = -Infinity;
  for (let at = firstBar(bars, frame.firstEntry); at < bars.length; at += 1) {
    const bar = bars[at];
    const x0 = frame.x(bar.start);
    const x1 = frame.endX(bar.end);
    if (x0 > frame.right) break;
    if (x1 < frame.left) continue;
    frame.drawn.connections += 1;
    if (x1 < drawnTo && !frame.isLit(bar)) continue;
    paintConnection(frame, bar, [x0, x1], y + MARGIN, height);
    paintEnd(frame, bars, at, y + MARGIN, height);
    if (frame.isLit(bar)) rim(frame, x0, x1, y + MARGIN, height);
    drawnTo = Math.max(x1, x0 + 1);
  }
}
