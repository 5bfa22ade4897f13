// Lanes of the topology, with refusals, and of servers with their states.
import { lastBefore } from './layout.js';
import { topologyText } from './outages.js';
import { topologyColours, typeColours } from './palette.js';
import { nanosText } from './scale.js';
import { inView, triangle, dot } from './signs.js';

export function paintTopology(frame, lane, y) {
  const { history } = frame.picture;
  inView(frame, history.topology, (item, x0, x1) => {
    frame.drawn.types += 1;
    const [band, ink] = topologyColours(frame.palette, item.type);
    frame.box(band, x0, x1 - 1, y + 4, 15);
    frame.textIn(topologyText(history, item), x0, x1, y + 15, ink, item.type === 'Unknown');
  });
  paintRefusals(frame, y);
}

function paintRefusals(frame, y) {
  let drawnTo = -Infinity;
  const items = frame.picture.refusalItems;
  inView(frame, items, (item, x0, x1) => {
    if (x0 < frame.left - 6) return;
    frame.mark('refusal');
    if (x0 - drawnTo < 2) return;
    drawnTo = x0;
    const { pen, palette } = frame;
    pen.strokeStyle = palette.bad;
    pen.lineWidth = 2;
    pen.beginPath();
    for (const side of [-1, 1]) {
      pen.moveTo(x0 - 3.5, y + 29 - 3.5 * side);
      pen.lineTo(x0 + 3.5, y + 29 + 3.5 * side);
    }
    pen.stroke();
    if (x1 - x0 > 60) frame.textIn(item.text, x0 + 5, x1, y + 33, palette.bad);
  });
}

function paintTypes(frame, server, y) {
  inView(frame, server.types, (item, x0, x1) => {
    if (item.type === '') return;
    frame.drawn.types += 1;
    const [band, ink] = typeColours(frame.palette, item.type);
    frame.box(item.type === 'Unknown' && x1 - x0 < 6 ? frame.palette.unknown : band, x0, x1 - 1, y, 18);
    frame.textIn(item.type, x0 + 8, x1, y + 13, ink, item.type === 'Unknown');
  });
}

const TRIP = 3; // the width of a round trip's dot

/** Round trips as dots, from nothing below to the greatest in view above; those of one place along are one line. */
function paintTrips(frame, server, y, height) {
  const { trips } = server;
  const from = Math.max(0, lastBefore(trips, frame.firstEntry));
  let most = 1;
  let to = from;
  for (; to < trips.length && trips[to].entry <= frame.lastEntry; to += 1) most = Math.max(most, trips[to].nanos);
  const level = (nanos) => y + (height - TRIP) * (1 - nanos / most);
  let column = null;
  const paint = () => column !== null && frame.box(frame.palette.accent, column.x - 1, column.x + 2, level(column.high), level(column.low) - level(column.high) + TRIP);
  for (let at = from; at < to; at += 1) {
    const { entry, nanos } = trips[at];
    const x = frame.x(entry);
    if (x < frame.left) continue;
    frame.drawn.trips += 1;
    if (column !== null && x - column.x < TRIP) {
      column.low = Math.min(column.low, nanos);
      column.high = Math.max(column.high, nanos);
    } else {
      paint();
      column = { x, low: nanos, high: nanos };
    }
  }
  paint();
  if (to > from) frame.tripsMost = nanosText(most);
}

const CROWDED = 9; // pixels between two marks; closer ones are plain lines

/** Marks of one kind that fall on one pixel are drawn once, and all are counted. */
function paintServerMarks(frame, server, y) {
  const drawnTo = {};
  inView(frame, server.marks, (item, x0, x1) => {
    if (x0 < frame.left - 6) return;
    frame.mark(item.kind);
    const away = x0 - (drawnTo[item.kind] ?? -Infinity);
    if (away < 3) return;
    drawnTo[item.kind] = x0;
    paintServerMark(frame, item, x0, y, away < CROWDED);
    if (item.kind === 'clear' && x1 - x0 > 70) frame.textIn(item.text, x0 + 4, x1, y + 34, frame.palette.bad, true);
  });
}

function paintServerMark(frame, item, x, y, isCrowded) {
  const { palette } = frame;
  if (item.kind === 'clear') {
    frame.box(palette.bad, x - 1, x + 1, y, 46);
    if (!isCrowded) triangle(frame, x, y + 5, 5, palette.bad, false);
  } else if (item.kind === 'raise') {
    triangle(frame, x, y + 5, 5, palette.bad, true);
  } else if (item.kind === 'failed check') {
    if (isCrowded) frame.box(palette.warn, x - 1, x + 1, y + 21, 8);
    else triangle(frame, x, y + 25, 4, palette.warn, true);
  } else dot(frame, x, y + 40, palette.ink);
}

export function paintServer(frame, lane, y) {
  frame.drawn.servers += 1;
  frame.tripsMost = '';
  paintTypes(frame, lane.server, y + 4);
  paintTrips(frame, lane.server, y + 24, 26);
  paintServerMarks(frame, lane.server, y + 3);
}
