// What a log speaks of: connections, requests, pools, servers, and the topology. Places are numbers, to be kept in lists.

export const PENDING = 0;
export const AVAILABLE = 1;
export const HELD = 2;
export const PINNED = 3;
export const PLACES = ['pending', 'available', 'with a party', 'at its pin'];

const REST = 4; // entries for which a row stays free behind a bar, so that there is room for words

/** A stretch of rows in which each bar has the lowest row that is free. */
export class Rows {
  constructor() {
    this.rows = []; // the bars of each row, in order
    this.free = []; // rows without a bar now: a heap, the lowest first
    this.resting = []; // rows whose bar just ended, in order
    this.rested = 0; // so many of them are free again
  }

  take(bar) {
    while (this.rested < this.resting.length && this.resting[this.rested].entry + REST < bar.start) {
      this.add(this.resting[this.rested].row);
      this.rested += 1;
    }
    const row = this.free.length > 0 ? this.lowest() : this.rows.push([]) - 1;
    this.rows[row].push(bar);
    return row;
  }

  release(row, entry) {
    this.resting.push({ row, entry });
  }

  add(row) {
    const heap = this.free;
    let at = heap.push(row) - 1;
    while (at > 0 && heap[(at - 1) >> 1] > heap[at]) {
      const up = (at - 1) >> 1;
      [heap[up], heap[at]] = [heap[at], heap[up]];
      at = up;
    }
  }

  lowest() {
    const heap = this.free;
    const first = heap[0];
    const last = heap.pop();
    if (heap.length > 0) {
      heap[0] = last;
      this.sink(0);
    }
    return first;
  }

  sink(from) {
    const heap = this.free;
    let at = from;
    for (;;) {
      let least = at;
      for (const child of [2 * at + 1, 2 * at + 2]) if (child < heap.length && heap[child] < heap[least]) least = child;
      if (least === at) return;
      [heap[least], heap[at]] = [heap[at], heap[least]];
      at = least;
    }
  }
}

/** A connection: where it was from which entry on, and with which party. */
export class Connection {
  constructor(pool, number, entry) {
    this.pool = pool;
    this.number = number;
    this.start = entry;
    this.isCreated = false; // false where the log never tells its creation
    this.end = -1;
    this.reason = '';
    this.isTried = false; // established, or failed to be
    this.requester = null;
    this.pins = 0;
    this.clears = pool.clears; // of its pool, before it was created
    this.entries = [];
    this.places = [];
    this.parties = []; // of each place; -1 for none
    this.row = -1;
  }

  get name() {
    return this.pool.number + '.' + this.number;
  }

  get place() {
    return this.places[this.places.length - 1];
  }

  get party() {
    return this.parties.length > 0 ? this.parties[this.parties.length - 1] : -1;
  }

  /** The place from this entry on; the last one of an entry counts. */
  move(entry, place, party) {
    const last = this.entries.length - 1;
    if (last >= 0 && this.entries[last] === entry) {
      this.places[last] = place;
      this.parties[last] = party;
    } else if (last < 0 || this.places[last] !== place || this.parties[last] !== party) {
      this.entries.push(entry);
      this.places.push(place);
      this.parties.push(party);
    }
  }

  /** At its close it has no place any more: one that it got in the same entry was none. */
  leave(entry) {
    const last = this.entries.length - 1;
    if (last < 1 || this.entries[last] !== entry) return;
    for (const list of [this.entries, this.places, this.parties]) list.pop();
  }

  /** The stretch that this entry falls in, or -1 before its creation. */
  stretchAt(entry) {
    let low = 0;
    let high = this.entries.length;
    while (low < high) {
      const middle = (low + high) >> 1;
      if (this.entries[middle] <= entry) low = middle + 1;
      else high = middle;
    }
    return low - 1;
  }
}

/** A caller's request, a warm one, or a take: from asking to its end. */
export class Request {
  constructor(kind, party, pool, entry) {
    this.kind = kind;
    this.party = party;
    this.pool = pool;
    this.start = entry;
    this.granted = -1;
    this.ready = -1; // the entry from which on it has its connection
    this.connection = null;
    this.end = -1;
    this.how = '';
    this.row = -1;
  }
}

export class Pool {
  constructor(number, address, entry) {
    this.number = number;
    this.address = address;
    this.start = entry;
    this.end = -1;
    this.max = null;
    this.min = null;
    this.connections = new Map();
    this.connectionRows = new Rows();
    this.requestRows = new Rows();
    this.grants = []; // { entry, request, connection }
    this.errors = []; // { entry, connection, party, isVoid, isLate }
    this.states = []; // { entry, state }
    this.counts = [0, 0, 0, 0]; // connections by place
    this.waiting = 0;
    this.sizes = []; // entry, the counts and the waiting callers, six numbers each
    this.touched = -1;
    this.clears = 0;
  }
}

export const SIZE_WIDTH = 6;

export class Server {
  constructor(address) {
    this.address = address;
    this.types = []; // { entry, type }; type '' where the server is gone
    this.trips = []; // { entry, nanos }
    this.marks = []; // { entry, kind, text }
    this.pools = [];
  }
}
