// Lanes of pools: their size against their limits, who waits, their state; and the errors on their connections.
import { SIZE_WIDTH } from './things.js';
import { CHARACTER } from './frame.js';
import { inView, diamond, sign } from './signs.js';

const SPARSE = 300; // columns; of more, a hatch cannot be seen
const LAYERS = [['held', 2], ['pinned', 3], ['pending', 0], ['available', 1]]; // from the bottom; each with its place in the counts

/** The sizes in view by pixel columns: within one, the entry with the most live connections and the most waiting. */
function columnsOf(frame, pool) {
  const { sizes } = pool;
  const count = sizes.length / SIZE_WIDTH;
  let low = 0;
  let high = count;
  while (low < high) {
    const middle = (low + high) >> 1;
    if (sizes[middle * SIZE_WIDTH] <= frame.firstEntry) low = middle + 1;
    else high = middle;
  }
  return gathered(frame, sizes, Math.max(0, low - 1) * SIZE_WIDTH);
}

/** The columns from an offset in the sizes on, each with the offset of its greatest size. */
function gathered(frame, sizes, from) {
  const columns = [];
  let last = null;
  for (let at = from; at < sizes.length; at += SIZE_WIDTH) {
    const x = frame.x(sizes[at]);
    if (x > frame.right) break;
    const live = sizes[at + 1] + sizes[at + 2] + sizes[at + 3] + sizes[at + 4];
    if (last === null || x - last.x >= 1) {
      last = { x, offset: at, live, waiting: sizes[at + 5] };
      columns.push(last);
    } else {
      if (live >= last.live) [last.live, last.offset] = [live, at];
      if (sizes[at + 5] > last.waiting) last.waiting = sizes[at + 5];
    }
  }
  return columns;
}

/** Fills a level for each column, up to the next one; columns of one level are one box. */
function fillSteps(frame, columns, right, fill, bottom, top) {
  let at = 0;
  while (at < columns.length) {
    const [low, high] = [Math.round(bottom(columns[at])), Math.round(top(columns[at]))];
    let next = at + 1;
    while (next < columns.length && Math.round(bottom(columns[next])) === low && Math.round(top(columns[next])) === high) next += 1;
    const to = next < columns.length ? columns[next].x : right;
    if (low > high) frame.box(fill, Math.round(columns[at].x), Math.round(to), high, low - high);
    at = next;
  }
}

function paintStack(frame, pool, columns, right, y, height, most) {
  const level = (amount) => y + height - (height * amount) / most;
  for (const column of columns) column.under = 0;
  for (const [name, place] of LAYERS) {
    const amount = (column) => pool.sizes[column.offset + 1 + place];
    const fill = name === 'pending' && columns.length < SPARSE ? frame.palette.pendingHatch : frame.palette[name];
    frame.pen.globalAlpha = name === 'available' ? 0.55 : 1;
    fillSteps(frame, columns, right, fill, (column) => level(column.under), (column) => level(column.under + amount(column)));
    frame.pen.globalAlpha = 1;
    for (const column of columns) column.under += amount(column);
  }
}

function limitLine(frame, words, amount, most, box, colour) {
  const { y, height } = box;
  const at = Math.round(y + height - (height * amount) / most) + 0.5;
  const { pen } = frame;
  const [left, right] = [Math.max(box.left, frame.left), Math.min(box.right, frame.right)];
  if (right - left < 2) return;
  pen.setLineDash([5, 3]);
  pen.lineWidth = 1;
  pen.strokeStyle = colour;
  pen.beginPath();
  pen.moveTo(left, at);
  pen.lineTo(right, at);
  pen.stroke();
  pen.setLineDash([]);
  frame.text(words, Math.min(right + 4, frame.right - words.length * CHARACTER - 6), at + (at < y + 8 ? 10 : -2), colour, true);
}

const STATE_COLOURS = { Ready: 'available', Paused: 'bad', New: 'unknown', Closed: 'muted' };
const DEFAULT_MOST = 10;

function paintStates(frame, pool, y) {
  inView(frame, pool.states, (item, x0, x1) => {
    frame.box(frame.palette[STATE_COLOURS[item.state]], x0, x1 - 1, y, 3);
    if (x1 - x0 > 50) frame.textIn(item.state, x0, x1, y - 2, frame.palette.muted, true);
  });
}

export function paintPool(frame, lane, y) {
  const { pool } = lane;
  frame.drawn.pools += 1;
  const columns = columnsOf(frame, pool);
  const limit = pool.max ?? DEFAULT_MOST;
  const seen = columns.reduce((most, column) => Math.max(most, column.live), 0);
  const waited = columns.reduce((most, column) => Math.max(most, column.waiting), 0);
  const most = Math.max(limit, seen, pool.min ?? 0, 1) * 1.08;
  const right = Math.min(frame.right, frame.place(frame.stop));
  paintStack(frame, pool, columns, right, y + 3, 36, most);
  if (waited > 0) {
    fillSteps(frame, columns, right, frame.palette.waiting, () => y + 52, (column) => y + 52 - (11 * column.waiting) / waited);
  }
  const box = { y: y + 3, height: 36, left: frame.x(pool.start), right: Math.min(right, frame.endX(pool.end)) };
  limitLine(frame, 'max ' + limit, limit, most, box, frame.palette.bad);
  if (pool.min) limitLine(frame, 'min ' + pool.min, pool.min, most, box, frame.palette.muted);
  frame.waited = waited;
  paintStates(frame, pool, y + 62);
}

/** Errors that operations met on their connections: full where they counted, hollow where they changed nothing. */
export function paintErrors(frame, lane, y) {
  const drawnTo = new Map(); // by row
  inView(frame, lane.pool.errors, (item, x0) => {
    if (x0 < frame.left - 6) return;
    frame.mark(item.isVoid ? 'void error' : 'error');
    const at = y + item.connection.row * lane.rowHeight + lane.rowHeight / 2;
    if (at < -10 || at > frame.height + 10 || x0 - (drawnTo.get(item.connection.row) ?? -Infinity) < 3) return;
    drawnTo.set(item.connection.row, x0);
    diamond(frame, x0, at, 5.5, frame.palette.bad, item.isVoid);
    if (frame.isLit(item.connection)) sign(frame, (item.isLate ? 'late error' : 'error') + (item.isVoid ? ', no effect' : ''), x0, at);
  });
}
