// Which lane stands where, from the top: the topology, then each server with its pools, their connections and requests.

export const HEIGHTS = { topology: 40, server: 54, pool: 66, connections: 18, requests: 13 };
const GAP = 6;

/** The row of each bar of a lane that does not have all of its pool. */
function placesIn(rows) {
  const found = new Map();
  rows.forEach((bars, row) => bars.forEach((bar) => found.set(bar, row)));
  return found;
}

/** The lanes in order. A pool whose number is in `folded` shows no bars; the filter says what else is shown. */
export function lanesOf(history, { folded, areBarsShown, filter }) {
  const lanes = [];
  let y = 0;
  const add = (kind, what, rows) => {
    const height = HEIGHTS[kind] * Math.max(rows.length, 1);
    lanes.push({ kind, y, height, rowHeight: HEIGHTS[kind], rows, ...what });
    y += height;
  };
  add('topology', {}, [[]]);
  for (const server of history.servers.values()) {
    if (!filter.shows(server)) continue;
    y += GAP;
    add('server', { server }, [[]]);
    for (const pool of server.pools) {
      add('pool', { server, pool }, [[]]);
      if (!areBarsShown || folded.has(pool.number)) continue;
      if (pool.connectionRows.rows.length > 0) add('connections', { server, pool }, pool.connectionRows.rows);
      const requests = filter.requestRows(pool);
      if (requests.length > 0) add('requests', { server, pool, places: filter.isFailed ? placesIn(requests) : null }, requests);
    }
  }
  return { lanes, height: y + GAP };
}

/** The lane at this height, or nothing between two of them. */
export function laneAt(lanes, y) {
  const at = firstLaneFrom(lanes, y);
  return at < lanes.length && lanes[at].y <= y ? lanes[at] : null;
}

/** The place in the list of the first lane that ends below this height. */
export function firstLaneFrom(lanes, y) {
  let low = 0;
  let high = lanes.length;
  while (low < high) {
    const middle = (low + high) >> 1;
    if (lanes[middle].y + lanes[middle].height <= y) low = middle + 1;
    else high = middle;
  }
  return low;
}

/** The row of a bar in a lane of its pool, or -1 where it is not shown. */
export function rowIn(lane, thing) {
  return lane.places ? (lane.places.get(thing) ?? -1) : thing.row;
}

/** Where the row of a connection or of a request begins, or nothing where its pool does not show it. */
export function rowPlace(lanes, kind, thing) {
  const lane = lanes.find((it) => it.kind === kind && it.pool === thing.pool);
  const row = lane === undefined ? -1 : rowIn(lane, thing);
  return row < 0 ? null : { y: lane.y + row * lane.rowHeight, height: lane.rowHeight };
}

/** The last bar of a row that begins at or before the entry, or the first of all. */
export function firstBar(bars, entry) {
  let low = 0;
  let high = bars.length;
  while (low < high) {
    const middle = (low + high) >> 1;
    if (bars[middle].start <= entry) low = middle + 1;
    else high = middle;
  }
  return Math.max(0, low - 1);
}

/** The place of the last item whose entry is at or before this one, or -1. */
export function lastBefore(items, entry) {
  let low = 0;
  let high = items.length;
  while (low < high) {
    const middle = (low + high) >> 1;
    if (items[middle].entry <= entry) low = middle + 1;
    else high = middle;
  }
  return low - 1;
}
