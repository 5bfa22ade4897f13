// Requests by how they ended, and how long they waited: of the whole log, or before, in and behind the times without a primary.
import { outagesOf } from './outages.js';

/** The least of sorted numbers that so many of a hundred do not pass, or nothing. */
function percentile(sorted, percent) {
  return sorted.length === 0 ? null : sorted[Math.max(0, Math.ceil((sorted.length * percent) / 100) - 1)];
}

function sumOf(history, name, requests) {
  const { moments } = history;
  const waits = requests.filter((it) => it.ready >= 0).map((it) => moments[it.ready] - moments[it.start]).sort((one, other) => one - other);
  const ends = {};
  let open = 0;
  for (const it of requests) {
    if (it.end < 0 && it.ready < 0) open += 1;
    else if (it.end >= 0 && !it.how.startsWith('returned')) ends[it.how] = (ends[it.how] ?? 0) + 1;
  }
  return { name, asked: requests.length, served: waits.length, ends, open, waits: { half: percentile(waits, 50), most: percentile(waits, 99), greatest: waits[waits.length - 1] ?? null } };
}

/** The sums of callers' requests, each by the time in which it asked. */
export function sumsOf(history) {
  const requests = [...history.requests.values()].filter((it) => it.kind === 'request');
  const outages = outagesOf(history);
  if (outages.length === 0) return [sumOf(history, 'whole log', requests)];
  const isIn = (it) => outages.some((outage) => it.start >= outage.from && (it.start < outage.to || !outage.isOver));
  const isBefore = (it) => it.start < outages[0].from;
  return [
    sumOf(history, 'before', requests.filter(isBefore)),
    sumOf(history, 'no primary', requests.filter(isIn)),
    sumOf(history, 'behind', requests.filter((it) => !isBefore(it) && !isIn(it))),
  ];
}
