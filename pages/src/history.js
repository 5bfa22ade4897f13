// A log's entries, taken one by one: what they make of connections, requests, pools and servers.
import { PENDING, AVAILABLE, HELD, PINNED, Connection, Request, Pool, Server } from './things.js';
import { ACTS, FACTS } from './effects.js';

export class History {
  constructor(count) {
    this.moments = new Float64Array(count); // of each line; of one that tells none, that of the line before
    this.isRead = new Uint8Array(count);
    this.isDone = new Uint8Array(count); // of each entry whether its step was done, at its moment: not the opening, none that was refused
    this.pools = new Map();
    this.servers = new Map();
    this.open = new Map(); // the open pool of each address
    this.requests = new Map(); // by party, takes too
    this.topology = []; // { entry, type, servers }
    this.jumps = []; // { entry, kind, text }: clears, refusals, errors, checks that failed
    this.refusals = [];
    this.grantEntries = []; // the entries that granted a connection, in order
    this.options = {};
    this.started = new Set(); // of a recording: the check-outs that wait, in the order in which they began
    this.touched = [];
    this.tallies = { entries: 0, created: 0, established: 0, grants: 0, closed: {}, ended: {}, returned: 0 };
  }

  take(entry, { step, reply, facts }) {
    this.isRead[entry] = 1;
    this.moments[entry] = step.moment;
    this.tallies.entries += 1;
    if (reply.kind === 'Refused') {
      this.refusals.push(entry);
      this.jump(entry, 'refusal', `${step.kind}: ${reply.value}`);
      return;
    }
    this.isDone[entry] = step.kind === 'open' ? 0 : 1;
    this.step = step;
    this.reply = reply;
    if (Object.hasOwn(ACTS, step.kind)) ACTS[step.kind](this, step, entry);
    for (const fact of facts) if (Object.hasOwn(FACTS, fact.kind)) FACTS[fact.kind](this, fact, entry);
    this.keepSizes(entry);
  }

  /** An event of a recording, and what it does. */
  tell(entry, moment, act) {
    this.isRead[entry] = 1;
    this.isDone[entry] = 1;
    this.moments[entry] = moment;
    this.tallies.entries += 1;
    act();
    this.keepSizes(entry);
  }

  jump(entry, kind, text) {
    this.jumps.push({ entry, kind, text });
  }

  server(address) {
    if (!this.servers.has(address)) this.servers.set(address, new Server(address));
    return this.servers.get(address);
  }

  /** The pool of this number; in a part of a log it may be named before it was opened. */
  pool(number, address, entry) {
    if (!this.pools.has(number)) {
      const pool = new Pool(number, address ?? 'unknown', entry);
      this.pools.set(number, pool);
      this.server(pool.address).pools.push(pool);
      if (address !== undefined) this.open.set(address, number);
    }
    return this.pools.get(number);
  }

  connection(pool, number, entry) {
    if (!pool.connections.has(number)) {
      const connection = new Connection(pool, number, entry);
      pool.connections.set(number, connection);
      connection.row = pool.connectionRows.take(connection);
    }
    return pool.connections.get(number);
  }

  touch(pool, entry) {
    if (pool.touched === entry) return;
    pool.touched = entry;
    this.touched.push(pool);
  }

  /** The connection has this place from this entry on. */
  move(connection, entry, place, party = -1) {
    if (connection.end >= 0) return;
    const pool = connection.pool;
    if (connection.entries.length > 0) pool.counts[connection.place] -= 1;
    connection.move(entry, place, party);
    pool.counts[place] += 1;
    this.touch(pool, entry);
  }

  /** A connection that was checked in, taken out again or closed has no party. */
  close(connection, entry, reason) {
    if (connection.end >= 0) return;
    if (connection.entries.length > 0) connection.pool.counts[connection.place] -= 1;
    connection.leave(entry);
    connection.end = entry;
    connection.reason = reason;
    connection.pool.connectionRows.release(connection.row, entry);
    this.tallies.closed[reason] = (this.tallies.closed[reason] ?? 0) + 1;
    this.touch(connection.pool, entry);
  }

  ask(kind, party, pool, entry) {
    const request = new Request(kind, party, pool, entry);
    this.requests.set(party, request);
    request.row = pool.requestRows.take(request);
    if (kind === 'request') pool.waiting += 1;
    this.touch(pool, entry);
    return request;
  }

  grant(request, connection, entry) {
    if (request.kind === 'request' && request.granted < 0) request.pool.waiting -= 1;
    request.granted = entry;
    this.grantEntries.push(entry);
    request.connection = connection;
    connection.requester = request;
    request.pool.grants.push({ entry, request, connection });
    this.tallies.grants += 1;
    const isPending = !connection.isTried && connection.entries.length > 0 && connection.place === PENDING;
    if (!isPending) request.ready = entry;
    this.move(connection, entry, isPending ? PENDING : HELD, request.party);
  }

  finish(request, entry, how) {
    if (request.end >= 0) return;
    if (request.kind === 'request' && request.granted < 0) request.pool.waiting -= 1;
    request.end = entry;
    request.how = how;
    request.pool.requestRows.release(request.row, entry);
    this.touch(request.pool, entry);
  }

  /** What the party has: a connection that is with it. */
  held(party) {
    const connection = this.requests.get(party)?.connection;
    return connection && connection.end < 0 && connection.place === HELD && connection.party === party ? connection : null;
  }

  /** The party gives back what it has: to its pin, or to be checked in by a fact of this entry. */
  giveBack(party, entry) {
    const connection = this.held(party);
    if (connection !== null && connection.pins > 0) this.move(connection, entry, PINNED);
  }

  keepSizes(entry) {
    for (const pool of this.touched) pool.sizes.push(entry, ...pool.counts, pool.waiting);
    this.touched.length = 0;
  }

  /** After the last line: one without a moment of its own, or whose step was refused, stands between those that were done before and behind. */
  end() {
    const { moments, isRead, isDone } = this;
    const next = new Float64Array(moments.length + 1).fill(-1); // the moment of the next step that was done
    for (let at = moments.length - 1; at >= 0; at -= 1) next[at] = isDone[at] === 1 ? moments[at] : next[at + 1];
    let last = Math.max(next[0], 0);
    for (let at = 0; at < moments.length; at += 1) {
      const own = isRead[at] === 1 ? moments[at] : last;
      if (isDone[at] === 0) moments[at] = Math.max(last, Math.min(own, next[at]));
      last = moments[at];
    }
  }
}

