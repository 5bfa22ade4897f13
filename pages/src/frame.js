// One painting of the lanes: the pen, what is in view, and a count of what was drawn.

export const TEXT_FONT = '11px ui-monospace, "DejaVu Sans Mono", Menlo, Consolas, monospace';
export const LABEL_FONT = '12px system-ui, "DejaVu Sans", sans-serif';
export const BOLD_FONT = '600 12px system-ui, "DejaVu Sans", sans-serif';
export const CHARACTER = 6.7; // the width of one in TEXT_FONT

export const nothingDrawn = () => ({ servers: 0, types: 0, trips: 0, pools: 0, connections: 0, stretches: 0, requests: 0, grants: 0, ends: 0, marks: {} });

export class Frame {
  constructor(context, picture) {
    this.pen = context;
    this.picture = picture;
    this.palette = picture.palette;
    this.scale = picture.scale;
    this.left = picture.gutter;
    this.right = picture.width;
    this.width = picture.width - picture.gutter;
    this.height = picture.height;
    this.from = picture.view.from;
    this.factor = this.width / (picture.view.to - picture.view.from);
    this.top = picture.scroll;
    this.firstEntry = this.scale.entryAt(picture.view.from);
    this.lastEntry = this.scale.entryAt(picture.view.to);
    this.stop = this.scale.extent()[1];
    this.drawn = nothingDrawn();
  }

  place(at) {
    return this.left + (at - this.from) * this.factor;
  }

  x(entry) {
    return this.left + (this.scale.places[entry] - this.from) * this.factor;
  }

  /** Where something ends that ended at this entry, or lives at the end of the log. */
  endX(entry) {
    return entry < 0 ? this.place(this.stop) : this.x(entry);
  }

  isLit(thing) {
    return this.picture.lit.has(thing);
  }

  mark(kind) {
    this.drawn.marks[kind] = (this.drawn.marks[kind] ?? 0) + 1;
  }

  /** A box on whole pixels, one wide at least. */
  box(fill, x0, x1, y, height) {
    const from = Math.max(Math.round(x0), this.left - 4);
    const to = Math.min(Math.max(Math.round(x1), from + 1), this.right + 4);
    if (to <= from) return;
    this.pen.fillStyle = fill;
    this.pen.fillRect(from, y, to - from, height);
  }

  /** Text with a rim of the page's colour, so that it can be read over bars. */
  text(words, x, y, colour, hasRim = false) {
    if (hasRim) {
      this.pen.lineWidth = 3;
      this.pen.lineJoin = 'round';
      this.pen.strokeStyle = this.palette.page;
      this.pen.strokeText(words, x, y);
    }
    this.pen.fillStyle = colour;
    this.pen.fillText(words, x, y);
  }

  /** The part of a band that is in view, a little inside. */
  inside(x0, x1) {
    return [Math.max(x0, this.left) + 4, Math.min(x1, this.right) - 4];
  }

  /** Text at the left end of a band, as much of it as has room; true where there was any. */
  textIn(words, x0, x1, y, colour, hasRim = false) {
    const [from, to] = this.inside(x0, x1);
    const room = Math.floor((to - from) / CHARACTER);
    if (room < Math.min(words.length, 6)) return false;
    this.text(words.length <= room ? words : words.slice(0, room - 1) + '…', from, y, colour, hasRim);
    return true;
  }
}
