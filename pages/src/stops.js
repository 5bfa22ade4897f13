// What can be picked in the picture, by a pointer or by keys: the stops of each row, in order.
import { firstBar, laneAt, lastBefore } from './layout.js';
import { topologyText, typeText } from './outages.js';

/** A stop is an entry and the thing that it is a stop of. */
function barStops(bars, isConnection) {
  const found = [];
  for (const bar of bars) {
    const entries = isConnection ? [...bar.entries] : [bar.start, bar.granted, bar.ready].filter((it) => it >= 0);
    if (bar.end >= 0) entries.push(bar.end);
    let last = -1;
    for (const entry of entries) {
      if (entry !== last) found.push({ entry, thing: bar });
      last = entry;
    }
  }
  return found;
}

const byEntry = (one, other) => one.entry - other.entry;

const STOPS = {
  topology: (history) => [...history.topology.map((it) => ({ entry: it.entry, thing: null })), ...history.refusals.map((entry) => ({ entry, thing: null }))],
  server: (history, lane) => [...lane.server.types, ...lane.server.marks, ...lane.server.trips].map((it) => ({ entry: it.entry, thing: lane.server })),
  pool: (history, lane) => lane.pool.states.map((it) => ({ entry: it.entry, thing: lane.pool })),
  connections: (history, lane, row) => [...barStops(lane.rows[row], true), ...lane.pool.errors.filter((it) => it.connection.row === row).map((it) => ({ entry: it.entry, thing: it.connection }))],
  requests: (history, lane, row) => barStops(lane.rows[row], false),
};

const kept = new WeakMap(); // the stops of the rows that were asked for

export function stopsOf(history, lane, row) {
  if (!kept.has(lane)) kept.set(lane, new Map());
  const rows = kept.get(lane);
  if (!rows.has(row)) rows.set(row, STOPS[lane.kind](history, lane, row).sort(byEntry));
  return rows.get(row);
}

/** The place in the list of the stop that is nearest to a place on the axis. */
export function nearestStop(stops, scale, place) {
  let best = -1;
  let least = Infinity;
  let low = 0;
  let high = stops.length;
  while (low < high) {
    const middle = (low + high) >> 1;
    if (scale.at(stops[middle].entry) < place) low = middle + 1;
    else high = middle;
  }
  for (const at of [low - 1, low]) {
    if (at < 0 || at >= stops.length) continue;
    const away = Math.abs(scale.at(stops[at].entry) - place);
    if (away < least) [best, least] = [at, away];
  }
  return { at: best, away: least };
}

const REACH = 7; // pixels

/** The bar of a row that covers a place on the axis, or one that is near. */
function barAt(picture, bars, place) {
  const { scale, factor } = picture;
  const at = firstBar(bars, scale.entryAt(place));
  for (const bar of [bars[at], bars[at + 1]]) {
    if (bar === undefined) continue;
    const from = scale.at(bar.start);
    const to = bar.end < 0 ? scale.extent()[1] : scale.at(bar.end);
    if (place >= from - REACH / factor && place <= to + REACH / factor) return bar;
  }
  return null;
}

/** The entry by which a bar came to be what it is at a place on the axis. */
function entryOf(picture, bar, place) {
  const entry = picture.scale.entryAt(place);
  if (bar.end >= 0 && picture.scale.at(bar.end) - place < REACH / picture.factor / 2) return bar.end;
  if (bar.entries !== undefined) return bar.entries[Math.max(0, bar.stretchAt(entry))] ?? bar.start;
  return [bar.ready, bar.granted, bar.start].find((it) => it >= 0 && it <= entry) ?? bar.start;
}

const BAND = 22; // pixels of the topology's lane that its type takes; below stand the refusals

/** The stretch of the topology that covers a place on the axis, with its words. */
function stretchAt(picture, place) {
  const { history, scale } = picture;
  const at = lastBefore(history.topology, scale.entryAt(place));
  return at < 0 ? null : { entry: history.topology[at].entry, thing: null, said: topologyText(history, history.topology[at]) };
}

const TYPES = 23; // pixels of a server's lane that its types take, with the triangles of clears over them

const isClear = (server, entry) => server.marks.some((it) => it.entry === entry && (it.kind === 'clear' || it.kind === 'raise'));

/** The stretch of a server's type that covers a place on the axis, with its words. */
function typeAt(picture, server, place) {
  const at = lastBefore(server.types, picture.scale.entryAt(place));
  return at < 0 ? null : { entry: server.types[at].entry, thing: server, said: typeText(picture.history, server, server.types[at]) };
}

/** What stands at a point of the picture: the lane, the row, and the stop, if one is there. */
export function pick(picture, x, y) {
  const lane = laneAt(picture.lanes, y + picture.scroll);
  const place = picture.placeAt(x);
  if (lane === null) return null;
  const row = Math.min(Math.floor((y + picture.scroll - lane.y) / lane.rowHeight), lane.rows.length - 1);
  const found = { lane, row, place, stop: null };
  const stops = stopsOf(picture.history, lane, row);
  const near = nearestStop(stops, picture.scale, place);
  if (lane.kind !== 'connections' && lane.kind !== 'requests') {
    const isNear = near.away * picture.factor <= REACH;
    if (lane.kind === 'topology' && y + picture.scroll - lane.y < BAND) found.stop = stretchAt(picture, place);
    else if (lane.kind === 'server' && y + picture.scroll - lane.y < TYPES && !(isNear && isClear(lane.server, stops[near.at].entry))) found.stop = typeAt(picture, lane.server, place);
    else if (isNear) found.stop = stops[near.at];
    return found;
  }
  const error = lane.pool.errors.find((it) => it.connection.row === row && lane.kind === 'connections' && Math.abs(picture.scale.at(it.entry) - place) * picture.factor <= REACH);
  if (error !== undefined) return { ...found, stop: { entry: error.entry, thing: error.connection } };
  const bar = barAt(picture, lane.rows[row], place);
  if (bar !== null) found.stop = { entry: entryOf(picture, bar, place), thing: bar };
  return found;
}
