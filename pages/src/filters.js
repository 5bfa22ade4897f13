// Which lanes and bars are shown: those of one server, and of requests those that failed.

const GOOD_ENDS = new Set(['', 'returned ok', 'returned streaming', 'Filled', 'Warmed']);

/** The requests of a pool that ended badly, were given up, or met an error. */
export function failedOf(pool) {
  const erring = new Set(pool.errors.map((it) => it.party));
  const found = pool.requestRows.rows.flat().filter((it) => !GOOD_ENDS.has(it.how) || erring.has(it.party));
  return found.sort((one, other) => one.start - other.start);
}

const REST_BEHIND = 4; // entries that stay free behind a bar

/** Bars in rows, each in the first one that is free. */
export function packed(bars) {
  const rows = [];
  for (const bar of bars) {
    const isFree = (row) => {
      const last = row[row.length - 1];
      return last.end >= 0 && last.end + REST_BEHIND < bar.start;
    };
    const row = rows.find(isFree);
    if (row === undefined) rows.push([bar]);
    else row.push(bar);
  }
  return rows;
}

export class Filter {
  constructor() {
    this.clear();
  }

  clear() {
    this.address = ''; // of the only server, or of all
    this.isFailed = false;
  }

  shows(server) {
    return this.address === '' || server.address === this.address;
  }

  requestRows(pool) {
    return this.isFailed ? packed(failedOf(pool)) : pool.requestRows.rows;
  }
}
