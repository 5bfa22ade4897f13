// How long the topology was what it was, and how long there was no primary.
import { lastBefore } from './layout.js';
import { durationText } from './scale.js';

const WITHOUT = 'ReplicaSetNoPrimary';
const PRIMARY = 'RsPrimary';

/** The milliseconds of a stretch of a list: to its next item, or to the end of the log. */
function lengthOf(history, items, at) {
  const { moments } = history;
  const end = at + 1 < items.length ? items[at + 1].entry : moments.length - 1;
  return moments[end] - moments[items[at].entry];
}

/** A stretch of the topology in words: its type, its servers, and how long it lasted. */
export function topologyText(history, item) {
  const length = durationText(lengthOf(history, history.topology, history.topology.indexOf(item)));
  return `${item.type}, ${item.servers} ${item.servers === 1 ? 'server' : 'servers'}, ${length}`;
}

/** A stretch of a server in words: its type, and how long it had it. */
export function typeText(history, server, item) {
  return `${server.address}: ${item.type === '' ? 'gone' : item.type}, ${durationText(lengthOf(history, server.types, server.types.indexOf(item)))}`;
}

/** The server that was the primary last before an entry, and is none from it on. */
function lostPrimary(history, entry) {
  let found = null;
  let latest = -1;
  for (const server of history.servers.values()) {
    const at = lastBefore(server.types, entry);
    if (at < 1 || server.types[at].type === PRIMARY || server.types[at - 1].type !== PRIMARY || server.types[at].entry <= latest) continue;
    [found, latest] = [server, server.types[at].entry];
  }
  return found;
}

/** The first error or failed check of a server behind its last good check, up to an entry; without one the entry itself. */
function firstError(server, entry) {
  if (server === null) return entry;
  const good = server.trips.findLast((it) => it.entry < entry)?.entry ?? -1;
  const errors = [...server.marks.filter((it) => it.kind === 'failed check'), ...server.pools.flatMap((it) => it.errors)];
  return errors.reduce((least, it) => (it.entry > good && it.entry < least ? it.entry : least), entry);
}

/** The first entry from one on by which a caller had a connection to the primary, or -1. */
function firstCheckOut(history, entry) {
  const isPrimary = (server) => server.types[lastBefore(server.types, entry)]?.type === PRIMARY;
  const address = [...history.servers.values()].find(isPrimary)?.address;
  let least = Infinity;
  for (const request of history.requests.values()) if (request.pool.address === address && request.ready >= entry && request.ready < least) least = request.ready;
  return least === Infinity ? -1 : least;
}

const outages = new WeakMap(); // of the histories that were asked

/** The times without a primary of a set that had one before: each with the entries of its first error, of its beginning and end, and of the first check-out behind it. */
export function outagesOf(history) {
  if (!outages.has(history)) outages.set(history, outagesIn(history));
  return outages.get(history);
}

function outagesIn(history) {
  const { topology, moments } = history;
  const found = [];
  let hadPrimary = false;
  let from = -1;
  const add = (to, isOver) => found.push({ error: firstError(lostPrimary(history, from), from), from, to, isOver, checkOut: isOver ? firstCheckOut(history, to) : -1 });
  for (const item of topology) {
    if (item.type === 'ReplicaSetWithPrimary') {
      if (from >= 0) add(item.entry, true);
      from = -1;
      hadPrimary = true;
    } else if (hadPrimary && from < 0 && item.type === WITHOUT) from = item.entry;
  }
  if (from >= 0) add(moments.length - 1, false);
  return found;
}

/** What is to be read at the top of one of them: words, a length in milliseconds, and the entry that it is about. */
export function figuresOf(history) {
  const { moments } = history;
  return outagesOf(history).flatMap((it) => {
    const lasted = { words: it.isOver ? 'no primary' : 'no primary, to the end', milliseconds: moments[it.to] - moments[it.from], entry: it.from, to: it.to };
    if (it.checkOut < 0) return [lasted];
    return [lasted, { words: 'first error to first check-out', milliseconds: moments[it.checkOut] - moments[it.error], entry: it.error, to: it.checkOut }];
  });
}
