// Bars of requests: from asking to their end.
import { firstBar } from './layout.js';
import { CHARACTER } from './frame.js';
import { FINE, MARGIN, roomBehind, rim } from './bars.js';
import { cross } from './signs.js';

const BAD_ENDS = new Set(['Cleared', 'Failed', 'TimedOut', 'Closed']);

function paintRequestEnd(frame, bars, at, y, height) {
  const bar = bars[at];
  if (bar.end < 0) return;
  const x = frame.x(bar.end);
  if (x < frame.left || x > frame.right) return;
  frame.drawn.ends += 1;
  const isBad = BAD_ENDS.has(bar.how);
  if (isBad) cross(frame, x, y + height / 2, 3, frame.palette.bad);
  else frame.box(frame.palette.muted, x - 1, x + 1, y, height);
  const words = bar.how.startsWith('returned') ? (bar.how === 'returned ok' ? '' : bar.how) : bar.how;
  if (words !== '' && roomBehind(frame, bars, at) > words.length * CHARACTER + 14 + labelWidth(bars[at + 1])) frame.text(words, x + 7, y + height, isBad ? frame.palette.bad : frame.palette.muted, true);
}

const label = (bar) => (bar.kind === 'request' ? String(bar.party) : `${bar.kind} ${bar.party}`);
const labelWidth = (bar) => (bar === undefined ? 0 : label(bar).length * CHARACTER);

/** The party stands before its bar where there is room, else on it. */
function requestName(frame, bars, at, x1, y) {
  const bar = bars[at];
  const x0 = frame.x(bar.start);
  const width = labelWidth(bar);
  const freeFrom = at > 0 ? frame.endX(bars[at - 1].end) : frame.left;
  if (x0 - width - 5 > Math.max(freeFrom + 3, frame.left)) frame.text(label(bar), x0 - width - 4, y, frame.palette.ink, true);
  else if (x1 - Math.max(x0, frame.left) > width + 14) frame.textIn(label(bar), x0, x1, y, frame.palette.ink, true);
}

function paintRequest(frame, bar, x1, y, height) {
  const { palette } = frame;
  const asked = frame.x(bar.start);
  const granted = bar.granted < 0 ? x1 : frame.x(bar.granted);
  const ready = bar.ready < 0 ? x1 : frame.x(bar.ready);
  if (granted > asked) frame.box(palette.waiting, asked, granted, y, height);
  if (ready > granted) frame.box(palette.pendingHatch, granted, ready, y, height);
  frame.box(palette.held, ready, x1, y + height / 2 - 1, 2);
}

/** Bars too small to show their parts: one box for neighbours that are alike. */
class SmallRequests {
  constructor(frame, y, height) {
    Object.assign(this, { frame, y, height, fill: '', from: 0, to: 0 });
  }

  add(bar, x0, x1) {
    const { palette } = this.frame;
    const waited = (bar.granted < 0 ? x1 : this.frame.x(bar.granted)) - x0;
    const fill = BAD_ENDS.has(bar.how) ? palette.bad : 2 * waited > x1 - x0 ? palette.waiting : palette.held;
    if (fill !== this.fill || x0 - this.to > 2) {
      this.paint();
      Object.assign(this, { fill, from: x0 });
    }
    this.to = Math.max(x1, x0 + 1);
  }

  paint() {
    const { frame, y, height } = this;
    if (this.fill === frame.palette.held) frame.box(this.fill, this.from, this.to, y + height / 2 - 1, 2);
    else if (this.fill !== '') frame.box(this.fill, this.from, this.to, y, height);
    this.fill = '';
  }
}

export function paintRequests(frame, bars, y, rowHeight) {
  const height = rowHeight - 2 * MARGIN;
  const small = new SmallRequests(frame, y + MARGIN, height);
  for (let at = firstBar(bars, frame.firstEntry); at < bars.length; at += 1) {
    const bar = bars[at];
    const x0 = frame.x(bar.start);
    if (x0 > frame.right) break;
    const x1 = frame.endX(bar.end);
    if (x1 < frame.left) continue;
    frame.drawn.requests += 1;
    if (bar.end >= 0 && x1 - x0 < FINE && roomBehind(frame, bars, at) < 3 * FINE && !frame.isLit(bar)) {
      small.add(bar, x0, x1);
      frame.drawn.ends += 1;
    } else {
      small.paint();
      paintWholeRequest(frame, bars, at, [x0, x1], y + MARGIN, height);
    }
  }
  small.paint();
}

function paintWholeRequest(frame, bars, at, [x0, x1], y, height) {
  const bar = bars[at];
  paintRequest(frame, bar, x1, y, height);
  paintRequestEnd(frame, bars, at, y, height);
  requestName(frame, bars, at, x1, y + height + 1);
  if (frame.isLit(bar)) rim(frame, x0, x1, y, height);
}
