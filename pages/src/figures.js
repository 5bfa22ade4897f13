// The numbers that a reader wants first, and the sums of requests before, in and behind the times without a primary.
import { element } from './element.js';
import { figuresOf } from './outages.js';
import { sumsOf } from './sums.js';
import { durationText } from './scale.js';

const MOST_FIGURES = 6;

/** Buttons with the lengths; one that is pressed goes to where it began. */
export function showFigures(box, history, go) {
  const figures = figuresOf(history);
  const buttons = figures.slice(0, MOST_FIGURES).map(({ words, milliseconds, entry, to }) => {
    const title = `from entry ${entry + 1} to entry ${to + 1}`;
    return element('button', { type: 'button', className: 'figure', title, onclick: () => go(entry) }, element('b', { textContent: durationText(milliseconds) }), ` ${words}`);
  });
  const more = figures.length > MOST_FIGURES ? [element('span', { className: 'quiet', textContent: `and ${figures.length - MOST_FIGURES} more` })] : [];
  box.replaceChildren(...buttons, ...more);
  box.hidden = figures.length === 0;
}

const asMilliseconds = (value) => (value === null ? '–' : durationText(value));

/** A table: a row for each number, a column for each time. */
export function showSums(table, history) {
  const times = sumsOf(history);
  const ends = [...new Set(times.flatMap((it) => Object.keys(it.ends)))].sort();
  const rows = [
    ['asked', (it) => it.asked], ['had a connection', (it) => it.served], ...ends.map((end) => [end, (it) => it.ends[end] ?? 0]), ['waits still', (it) => it.open],
    ['wait, p50', (it) => asMilliseconds(it.waits.half)], ['wait, p99', (it) => asMilliseconds(it.waits.most)], ['wait, greatest', (it) => asMilliseconds(it.waits.greatest)],
  ];
  const cell = (tag, words, more = {}) => element(tag, { textContent: String(words), ...more });
  const head = element('tr', {}, cell('td', ''), ...times.map((it) => cell('th', it.name, { scope: 'col' })));
  table.replaceChildren(element('thead', {}, head), element('tbody', {}, ...rows.map(([name, value]) => element('tr', {}, cell('th', name, { scope: 'row' }), ...times.map((it) => cell('td', value(it)))))));
}
