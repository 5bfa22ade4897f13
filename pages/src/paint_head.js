// Above the lanes: the whole log in small, with the part that is in view, and the axis.
import { ticks, durationText } from './scale.js';
import { TEXT_FONT, CHARACTER } from './frame.js';

export const OVERVIEW = 30; // its height
export const HEAD = 54;
const GREAT_START = 100000; // from such a first moment on, the axis counts from it

export class Overview {
  constructor(picture) {
    const { scale } = picture;
    [this.from, this.to] = scale.extent();
    this.left = picture.gutter;
    this.width = Math.max(1, picture.width - picture.gutter);
  }

  x(place) {
    return this.left + ((place - this.from) / (this.to - this.from)) * this.width;
  }

  placeAt(x) {
    return this.from + ((x - this.left) / this.width) * (this.to - this.from);
  }
}

const TICKS = { clear: 'bad', refusal: 'muted', 'failed check': 'warn', error: 'bad', 'void error': 'ink' };

/** The small picture is painted once for each log, axis, width and theme, and kept. */
function paintWhole(pen, picture, overview) {
  const key = [picture.scale.axis, picture.width, picture.palette.page, window.devicePixelRatio].join();
  if (picture.whole?.key !== key || picture.whole.log !== picture.log) {
    const ratio = window.devicePixelRatio || 1;
    const canvas = document.createElement('canvas');
    canvas.width = Math.round(picture.width * ratio);
    canvas.height = OVERVIEW * ratio;
    const context = canvas.getContext('2d');
    context.scale(ratio, ratio);
    paintAll(context, picture, overview);
    picture.whole = { key, log: picture.log, canvas };
  }
  pen.drawImage(picture.whole.canvas, 0, 0, picture.width, OVERVIEW);
}

/** How many connections are in use and callers wait, for each pixel, and the places of clears, refusals and errors. */
function paintAll(pen, picture, overview) {
  const { palette, scale, history, jumpItems } = picture;
  const most = new Float64Array(Math.ceil(overview.width) + 1);
  for (const pool of history.pools.values()) {
    for (let at = 0; at < pool.sizes.length; at += 6) {
      const column = Math.floor(overview.x(scale.at(pool.sizes[at])) - overview.left);
      const used = pool.sizes[at + 3] + pool.sizes[at + 5];
      if (used > most[column]) most[column] = used;
    }
  }
  const top = most.reduce((a, b) => Math.max(a, b), 1);
  pen.fillStyle = palette.held;
  pen.globalAlpha = 0.45;
  for (let at = 0; at < most.length; at += 1) pen.fillRect(overview.left + at, OVERVIEW - (18 * most[at]) / top, 1, (18 * most[at]) / top);
  pen.globalAlpha = 1;
  const drawn = new Set();
  for (const item of jumpItems) {
    const x = Math.round(overview.x(scale.at(item.entry)));
    const key = x + TICKS[item.kind];
    if (drawn.has(key)) continue;
    drawn.add(key);
    pen.fillStyle = palette[TICKS[item.kind]];
    pen.fillRect(x, item.kind === 'refusal' ? 6 : 1, item.kind === 'clear' ? 2 : 1, item.kind === 'refusal' ? 5 : 10);
  }
}

function paintWindow(pen, picture, overview) {
  const from = overview.x(picture.view.from);
  const to = Math.max(overview.x(picture.view.to), from + 3);
  pen.fillStyle = picture.palette.ink;
  pen.globalAlpha = 0.14;
  pen.fillRect(overview.left, 0, Math.max(0, from - overview.left), OVERVIEW);
  pen.fillRect(to, 0, Math.max(0, picture.width - to), OVERVIEW);
  pen.globalAlpha = 1;
  pen.strokeStyle = picture.palette.accent;
  pen.lineWidth = 1.5;
  pen.strokeRect(Math.max(from, overview.left) + 0.5, 0.75, Math.min(to, picture.width) - Math.max(from, overview.left) - 1, OVERVIEW - 1.5);
}

/** What a place of the axis is called. */
function tickText(picture, place, step) {
  if (picture.scale.axis === 'entries') return place < 0 || place + 1 > picture.scale.count ? '' : String(Math.round(place) + 1);
  const start = picture.scale.times[0];
  if (start < GREAT_START) return step >= 1000 ? durationText(place) : `${Number(place.toFixed(2))} ms`;
  return '+' + (step >= 1000 ? durationText(place - start) : `${Number((place - start).toFixed(2))} ms`);
}

function paintAxis(pen, picture) {
  const { palette, view, scale, width, gutter } = picture;
  const factor = (width - gutter) / (view.to - view.from);
  const isFar = scale.axis === 'time' && scale.count > 0 && scale.times[0] >= GREAT_START;
  const shift = isFar ? scale.times[0] : scale.axis === 'entries' ? -1 : 0;
  const { step, places } = ticks(view.from - shift, view.to - shift, Math.max(100 / factor, scale.axis === 'entries' ? 1 : 0), scale.axis === 'time');
  pen.font = TEXT_FONT;
  for (const place of places) {
    const x = Math.round(gutter + (place + shift - view.from) * factor) + 0.5;
    if (x < gutter) continue;
    pen.fillStyle = palette.line;
    pen.fillRect(x, OVERVIEW + 4, 1, HEAD - OVERVIEW - 4);
    const words = tickText(picture, place + shift, step);
    pen.fillStyle = palette.muted;
    if (x + 4 + words.length * CHARACTER < width) pen.fillText(words, x + 4, HEAD - 7);
  }
  return places.map((place) => gutter + (place + shift - view.from) * factor);
}

export function paintHead(pen, picture) {
  const { palette, width, gutter, scale } = picture;
  pen.fillStyle = palette.page;
  pen.fillRect(0, 0, width, HEAD);
  const overview = new Overview(picture);
  paintWhole(pen, picture, overview);
  paintWindow(pen, picture, overview);
  picture.tickPlaces = paintAxis(pen, picture);
  if (gutter > 0) {
    pen.fillStyle = palette.page;
    pen.fillRect(0, 0, gutter, HEAD);
    pen.fillStyle = palette.muted;
    pen.font = TEXT_FONT;
    pen.fillText('whole log', 10, 19);
    pen.fillText(scale.axis === 'entries' ? 'entry' : scale.times[0] >= GREAT_START ? 'from ' + scale.times[0] : 'time', 10, HEAD - 7);
  }
}
