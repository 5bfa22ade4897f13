// Charts of a run: numbers over time, with the failure, the election and the recovery, and a cursor that tells the numbers of a moment.
import { element } from './element.js';
import { ticks, durationText } from './scale.js';

const LEFT = 52;
const RIGHT = 8;
const TOP = 18;
const BOTTOM = 20;
const HEIGHT = 170;
const TICK_ROOM = { x: 70, y: 30 }; // pixels between two ticks at least

/** What each chart has. An area stands on the one before it, a line on the axis. */
const CHARTS = [
  {
    title: 'Connections', series: [
      { name: 'b is being connected to', colour: 'pending', kind: 'area', of: (it) => it.pendingB },
      { name: 'b, the successor', colour: 'held', kind: 'line', dash: [], of: (it) => it.liveB },
      { name: 'a, which fails', colour: 'bad', kind: 'line', dash: [6, 3], of: (it) => it.liveA },
      { name: 'c', colour: 'muted', kind: 'line', dash: [2, 3], of: (it) => it.liveC },
    ],
  },
  {
    title: 'Waiting callers', series: [
      { name: 'for a connection', colour: 'waiting', kind: 'area', of: (it) => it.queued },
      { name: 'for a primary', colour: 'pinned', kind: 'area', of: (it) => it.selecting },
    ],
  },
  {
    title: 'Operations a second', series: [
      { name: 'done', colour: 'available', kind: 'line', dash: [], of: (it, rate) => it.done * rate },
      { name: 'failed', colour: 'bad', kind: 'line', dash: [6, 3], of: (it, rate) => it.failed * rate },
    ],
  },
];

const numberText = (value) => (value >= 10000 ? `${Number((value / 1000).toPrecision(3))} k` : String(Math.round(value)));

class Chart {
  constructor(box, plan, run, moved) {
    this.plan = plan;
    this.run = run;
    this.canvas = element('canvas', {});
    this.box = element('div', { className: 'chart', tabIndex: 0 }, element('p', { className: 'key' }, element('b', { textContent: `${plan.title} ` }), ...plan.series.map((it) => this.keyOf(it))), this.canvas);
    const about = { role: 'slider', 'aria-label': `${plan.title}, ${run.name}: a cursor along the time`, 'aria-valuemin': 0, 'aria-valuemax': run.length };
    for (const [name, value] of Object.entries(about)) this.box.setAttribute(name, value);
    this.box.addEventListener('pointermove', (event) => moved(this.momentAt(event.offsetX)));
    this.box.addEventListener('pointerleave', () => moved(null));
    this.box.addEventListener('keydown', (event) => this.key(event, moved));
    box.append(this.box);
  }

  keyOf({ name, colour, kind, dash }) {
    const chip = element('i', { className: `chip ${kind}` });
    chip.style.setProperty('--of', `var(--${colour})`);
    if (dash?.length > 0) chip.classList.add('dashed');
    return element('span', {}, chip, name);
  }

  /** Goes a sample, or ten, along the time. */
  key(event, moved) {
    const by = { ArrowLeft: -1, ArrowRight: 1, PageDown: -10, PageUp: 10, Home: -Infinity, End: Infinity }[event.key];
    if (by === undefined) return;
    event.preventDefault();
    const last = this.run.rows.length - 1;
    moved(this.run.rows[Math.min(Math.max(this.rowAt(this.cursor ?? 0) + by, 0), last)].moment);
  }

  rowAt(moment) {
    return Math.min(Math.max(Math.round(moment / this.run.step), 0), this.run.rows.length - 1);
  }

  momentAt(x) {
    const moment = ((x - LEFT) / (this.canvas.clientWidth - LEFT - RIGHT)) * this.run.length;
    return Math.min(Math.max(moment, 0), this.run.length);
  }

  /** The values of a row, each area upon those before it. */
  heights(row) {
    let below = 0;
    return this.plan.series.map((it) => {
      const value = it.of(row, this.run.rate);
      if (it.kind !== 'area') return value;
      below += value;
      return below;
    });
  }

  greatest() {
    return this.run.rows.reduce((most, row) => Math.max(most, ...this.heights(row)), 1);
  }

  /** Paints, up to a greatest value. */
  paint(palette, most) {
    const ratio = window.devicePixelRatio || 1;
    const width = this.canvas.clientWidth;
    Object.assign(this.canvas, { width: width * ratio, height: HEIGHT * ratio });
    this.pen = this.canvas.getContext('2d');
    this.pen.scale(ratio, ratio);
    this.pen.font = '11px system-ui, sans-serif';
    this.x = (moment) => LEFT + (moment / this.run.length) * (width - LEFT - RIGHT);
    this.y = (value) => HEIGHT - BOTTOM - (value / most) * (HEIGHT - TOP - BOTTOM);
    this.paintAxes(palette, most, width);
    const heights = this.run.rows.map((row) => this.heights(row));
    const all = this.plan.series.map((series, at) => ({ series, values: heights.map((it) => it[at]) }));
    const areas = all.filter((it) => it.series.kind === 'area').reverse(); // the least last, since each begins at the axis
    for (const { series, values } of [...areas, ...all.filter((it) => it.series.kind === 'line')]) this.paintSeries(palette, series, values);
    this.paintMarks(palette);
    this.paintCursor(palette);
  }

  paintAxes(palette, most, width) {
    const { pen } = this;
    pen.textBaseline = 'middle';
    pen.textAlign = 'right';
    for (const value of ticks(0, most, (most * TICK_ROOM.y) / (HEIGHT - TOP - BOTTOM), false).places) {
      pen.fillStyle = palette.line;
      pen.fillRect(LEFT, Math.round(this.y(value)), width - LEFT - RIGHT, 1);
      pen.fillStyle = palette.muted;
      pen.fillText(numberText(value), LEFT - 5, this.y(value));
    }
    pen.textAlign = 'center';
    for (const moment of ticks(0, this.run.length, (this.run.length * TICK_ROOM.x) / (width - LEFT - RIGHT), true).places) {
      if (this.x(moment) < width - 20) pen.fillText(moment === 0 ? '0' : durationText(moment), this.x(moment), HEIGHT - BOTTOM / 2);
    }
  }

  paintSeries(palette, series, values) {
    const { pen, run } = this;
    pen.beginPath();
    values.forEach((value, at) => pen.lineTo(this.x(run.rows[at].moment), this.y(value)));
    if (series.kind === 'area') {
      pen.lineTo(this.x(run.rows[values.length - 1].moment), this.y(0));
      pen.lineTo(this.x(0), this.y(0));
      pen.fillStyle = palette[series.colour];
      pen.fill();
      return;
    }
    pen.strokeStyle = palette[series.colour];
    pen.lineWidth = 1.8;
    pen.setLineDash(series.dash);
    pen.stroke();
    pen.setLineDash([]);
  }

  paintMarks(palette) {
    const { pen } = this;
    pen.textAlign = 'left';
    for (const [moment, words, colour] of this.run.marks) {
      if (moment > this.run.length) continue;
      pen.fillStyle = palette[colour];
      pen.fillRect(Math.round(this.x(moment)), 4, 1.5, HEIGHT - BOTTOM - 4);
      const room = pen.measureText(words).width + 4;
      pen.fillText(words, this.x(moment) + room > this.canvas.clientWidth ? this.x(moment) - room : this.x(moment) + 4, 9 + 11 * (this.run.marks.findIndex((it) => it[1] === words) % 2));
    }
  }

  paintCursor(palette) {
    const { pen, cursor } = this;
    this.box.setAttribute('aria-valuenow', Math.round(cursor ?? 0));
    this.box.setAttribute('aria-valuetext', this.told());
    if (cursor === null || cursor === undefined) return;
    pen.fillStyle = palette.ink;
    pen.fillRect(Math.round(this.x(this.run.rows[this.rowAt(cursor)].moment)), TOP, 1, HEIGHT - BOTTOM - TOP);
  }

  /** The numbers at the cursor, in words. */
  told() {
    const row = this.run.rows[this.rowAt(this.cursor ?? 0)];
    return `${durationText(row.moment)}: ${this.plan.series.map((it) => `${it.name} ${Math.round(it.of(row, this.run.rate))}`).join(', ')}`;
  }
}

/** The charts of runs, beside each other: those of one title have one scale. */
export class Charts {
  constructor(boxes, told) {
    this.boxes = boxes;
    this.tell = told;
    this.charts = [];
  }

  show(runs) {
    const from = this.charts.findIndex((it) => it.box === document.activeElement);
    this.charts = [];
    runs.forEach((run, at) => {
      this.boxes[at].replaceChildren(element('h2', { textContent: run.name }));
      for (const plan of CHARTS) this.charts.push(new Chart(this.boxes[at], plan, run, (moment) => this.move(moment)));
    });
    this.charts[from]?.box.focus();
    this.paint();
  }

  move(moment) {
    for (const chart of this.charts) chart.cursor = moment;
    this.paint();
    const about = moment === null ? '' : this.charts.map((it) => `${it.run.name}, ${it.plan.title.toLowerCase()} at ${it.told()}`);
    this.tell(about === '' ? [] : about);
  }

  paint() {
    const style = getComputedStyle(document.documentElement);
    const palette = new Proxy({}, { get: (_, name) => style.getPropertyValue('--' + name).trim() });
    for (const { title } of CHARTS) {
      const alike = this.charts.filter((it) => it.plan.title === title);
      const most = Math.max(...alike.map((it) => it.greatest()));
      for (const chart of alike) chart.paint(palette, most);
    }
  }
}
