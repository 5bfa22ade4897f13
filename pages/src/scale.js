// Where an entry stands along the picture: by its moment or by its number.

const SPREAD = 0.9; // of a millisecond, over which the entries of one moment are spread in their order

/** A place along the time for each entry: its moment, and within one moment the order of the log. */
function timesOf(moments) {
  const times = new Float64Array(moments.length);
  let from = 0;
  while (from < moments.length) {
    let to = from + 1;
    while (to < moments.length && moments[to] === moments[from]) to += 1;
    for (let at = from; at < to; at += 1) times[at] = moments[from] + (SPREAD * (at - from)) / (to - from);
    from = to;
  }
  for (let at = 1; at < times.length; at += 1) if (times[at] < times[at - 1]) times[at] = times[at - 1];
  return times;
}

const GREAT_GAP = 0.6; // of the whole: then the time is a bad first picture

export class Scale {
  constructor(moments) {
    this.count = moments.length;
    this.times = timesOf(moments);
    this.numbers = Float64Array.from({ length: this.count }, (_, at) => at);
    this.setAxis(this.isUneven() ? 'entries' : 'time');
  }

  setAxis(axis) {
    this.axis = axis;
    this.places = axis === 'time' ? this.times : this.numbers;
  }

  isUneven() {
    const { times, count } = this;
    const whole = count > 0 ? times[count - 1] - times[0] : 0;
    let gap = 0;
    for (let at = 1; at < count; at += 1) gap = Math.max(gap, times[at] - times[at - 1]);
    return whole < 2 || (count > 20 && gap > GREAT_GAP * whole);
  }

  at(entry) {
    return this.places[entry];
  }

  /** The first and the last place. */
  extent() {
    if (this.count === 0) return [0, 1];
    return this.axis === 'time' ? [this.times[0], this.times[this.count - 1] + 1] : [0, this.count];
  }

  /** The last entry at or before a place. */
  entryAt(place) {
    if (this.axis === 'entries') return Math.min(Math.max(Math.floor(place), 0), this.count - 1);
    let low = 0;
    let high = this.count;
    while (low < high) {
      const middle = (low + high) >> 1;
      if (this.times[middle] <= place) low = middle + 1;
      else high = middle;
    }
    return Math.max(0, low - 1);
  }

  nearest(place) {
    const before = this.entryAt(place);
    const after = Math.min(before + 1, this.count - 1);
    return place - this.at(before) <= this.at(after) - place ? before : after;
  }
}

const STEPS = [1, 2, 5];

const [SECOND, MINUTE, HOUR, DAY] = [1000, 60000, 3600000, 86400000];
const LONG_STEPS = [...[1, 2, 5, 10, 15, 30].map((it) => it * SECOND), ...[1, 2, 5, 10, 15, 30].map((it) => it * MINUTE), ...[1, 2, 3, 6, 12].map((it) => it * HOUR)];

/** The least round number that is as great: 1, 2 or 5 of a power of ten. */
function roundStep(least) {
  const power = 10 ** Math.floor(Math.log10(least));
  return STEPS.map((it) => it * power).find((it) => it >= least) ?? 10 * power;
}

/** In milliseconds: from a second on, such numbers of seconds, minutes, hours and days as clocks have. */
function timeStep(least) {
  if (least <= SECOND / 2) return roundStep(least);
  return LONG_STEPS.find((it) => it >= least) ?? roundStep(least / DAY) * DAY;
}

/** Round places between two others, at least so far apart. */
export function ticks(from, to, least, isTime) {
  const step = isTime ? timeStep(least) : roundStep(least);
  const found = [];
  for (let at = Math.ceil(from / step) * step; at <= to && found.length < 200; at += step) found.push(at);
  return { step, places: found };
}

const UNITS = [[DAY, 'd'], [HOUR, 'h'], [MINUTE, 'min'], [SECOND, 's'], [1, 'ms']];

export function durationText(milliseconds) {
  const [size, unit] = UNITS.find((it) => Math.abs(milliseconds) >= it[0]) ?? UNITS[4];
  const value = milliseconds / size;
  return `${Number(value.toPrecision(Math.abs(value) >= 100 ? 4 : 3))} ${unit}`;
}

/** A round trip in nanoseconds. */
export function nanosText(nanos) {
  if (nanos < 1000) return nanos + ' ns';
  if (nanos < 1000000) return Number((nanos / 1000).toPrecision(3)) + ' µs';
  return durationText(nanos / 1000000);
}
