// The numbers of runs: a table for people, and both tables as CSV.
import { element } from './element.js';
import { durationText } from './scale.js';

export const MICROSECONDS = 1000; // of a millisecond

const time = (name) => (sums) => durationText(sums[name] / MICROSECONDS);
const count = (name) => (sums) => sums[name].toLocaleString('en');

/** The time from the failure to a moment of the run, or that there was none. */
const since = (name) => (sums, failsAt) => (sums[name] === 0 ? 'not in this run' : durationText((sums[name] - failsAt * MICROSECONDS) / MICROSECONDS));

const waits = (name) => ['P50', 'P99', 'Most'].map((it) => [`${{ P50: 'p50', P99: 'p99', Most: 'greatest' }[it]}`, time(`waits${name}${it}US`)]);

const GROUPS = [
  ['From the failure', [['to the election', time('gapUS')], ['to the last driver that knows of it', since('lastKnowsUS')], ['to the recovery', since('recoveredUS')]]],
  ['Connections to the successor', [['being established at once', count('pendingMost')], ['begun since the failure', count('opened')], ['at once', count('liveMost')], ['longest wait to be accepted', time('acceptMostUS')]]],
  ['Waiting callers', [['before the failure, at once', count('calm')], ['from then on', count('waitingMost')]]],
  ['Waits, asked before the failure', waits('Before')],
  ['Waits, asked without a primary', waits('Gap')],
  ['Waits, asked since the election', waits('After')],
  ['Operations', [['asked', count('asked')], ['done', count('done')], ['failed', count('failed')], ['tried once more', count('retried')], ['not at their end', count('left')]]],
  ['Errors of attempts', [['network', count('network')], ['not primary', count('notPrimary')], ['pool cleared', count('poolCleared')], ['connecting failed', count('connect')], ['waited too long for a connection', count('waitQueueTimeout')], ['for a primary', count('serverSelection')]]],
];

/** A table: a row for each number, a column for each run. `runs` have a name, sums and the moment of the failure. */
export function showNumbers(table, runs) {
  const cell = (tag, text, more = {}) => element(tag, { textContent: text, ...more });
  const head = element('tr', {}, cell('td', ''), ...runs.map((it) => cell('th', it.name, { scope: 'col' })));
  const groups = GROUPS.map(([title, rows]) => element('tbody', {},
    element('tr', {}, cell('th', title, { scope: 'rowgroup', colSpan: runs.length + 1 })),
    ...rows.map(([name, value]) => element('tr', {}, cell('th', name, { scope: 'row' }), ...runs.map((it) => cell('td', value(it.sums, it.failsAt)))))));
  table.replaceChildren(element('caption', { textContent: 'What the runs came to', className: 'hidden' }), element('thead', {}, head), ...groups);
}

/** All samples, as the command line writes them. */
export function samplesText(runs) {
  const lines = runs.flatMap(({ samples }, at) => samples.rows.map((row) => [at + 1, ...row].join(',')));
  return [['run', ...runs[0].samples.names].join(','), ...lines, ''].join('\n');
}

export function sumsText(runs) {
  const names = Object.keys(runs[0].sums);
  return [['sum', ...runs.map((it) => it.name)].join(','), ...names.map((name) => [name, ...runs.map((it) => it.sums[name])].join(',')), ''].join('\n');
}
