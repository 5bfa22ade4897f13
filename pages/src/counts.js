// What the page knows of its log, as numbers: to be compared with those that another reader finds.
import { PLACES, SIZE_WIDTH } from './things.js';

const tally = (items) => items.reduce((found, it) => ({ ...found, [it]: (found[it] ?? 0) + 1 }), {});

export function countsOf({ log, history }) {
  const pools = [...history.pools.values()];
  const servers = [...history.servers.values()];
  const requests = [...history.requests.values()];
  return {
    lines: log.count, read: history.tallies.entries, unread: log.unread.length,
    servers: servers.length, pools: pools.length,
    created: history.tallies.created, closed: history.tallies.closed, grants: history.tallies.grants, ended: history.tallies.ended,
    connections: pools.reduce((sum, pool) => sum + pool.connections.size, 0),
    stretches: pools.reduce((sum, pool) => sum + [...pool.connections.values()].reduce((many, it) => many + it.entries.length, 0), 0),
    had: requests.filter((it) => it.kind === 'request' && it.ready >= 0).length, requests: tally(requests.map((it) => it.kind)), waiting: pools.reduce((sum, pool) => sum + pool.waiting, 0),
    jumps: tally(history.jumps.map((it) => it.kind)), clears: pools.reduce((sum, pool) => sum + pool.clears, 0),
    types: servers.reduce((sum, it) => sum + it.types.filter((one) => one.type !== '').length, 0),
    trips: servers.reduce((sum, it) => sum + it.trips.length, 0),
    ready: pools.reduce((sum, pool) => sum + pool.states.filter((it) => it.state === 'Ready').length, 0),
    live: pools.map((pool) => pool.counts.reduce((sum, it) => sum + it, 0)),
  };
}

/** Where each live connection is after an entry: its place, and its party where it is with one. */
export function placesOf({ history }, entry) {
  const found = {};
  for (const pool of history.pools.values()) {
    for (const connection of pool.connections.values()) {
      const at = connection.stretchAt(entry);
      if (at < 0 || (connection.end >= 0 && connection.end <= entry)) continue;
      const place = PLACES[connection.places[at]];
      found[connection.name] = place === 'with a party' ? place + ' ' + connection.parties[at] : place;
    }
  }
  return found;
}

/** What each pool's lane is drawn from: the entries that changed it, with its connections by place and its waiting callers. */
export function sizesOf({ history }) {
  const found = {};
  for (const pool of history.pools.values()) {
    found[pool.number] = [];
    for (let at = 0; at < pool.sizes.length; at += SIZE_WIDTH) found[pool.number].push(pool.sizes.slice(at, at + SIZE_WIDTH));
  }
  return found;
}
