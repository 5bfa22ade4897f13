// Signs that stand for marks, and the items of a lane that are in view.
import { lastBefore } from './layout.js';
import { CHARACTER } from './frame.js';

/** Runs over the items of a list in view, with the place where each begins and where the next one does. */
export function inView(frame, items, visit) {
  let from = Math.max(0, lastBefore(items, frame.firstEntry));
  while (from > 0 && items[from - 1].entry === items[from].entry) from -= 1;
  for (let at = from; at < items.length; at += 1) {
    const x0 = frame.x(items[at].entry);
    if (x0 > frame.right) break;
    visit(items[at], x0, at + 1 < items.length ? frame.x(items[at + 1].entry) : frame.place(frame.stop));
  }
}

export function triangle(frame, x, y, size, fill, isHollow) {
  const { pen } = frame;
  pen.beginPath();
  pen.moveTo(x - size, y - size);
  pen.lineTo(x + size, y - size);
  pen.lineTo(x, y + size);
  pen.closePath();
  pen.lineWidth = 1.6;
  pen.fillStyle = isHollow ? frame.palette.page : fill;
  pen.fill();
  pen.strokeStyle = fill;
  pen.stroke();
}

export function diamond(frame, x, y, size, fill, isHollow) {
  const { pen } = frame;
  pen.beginPath();
  pen.moveTo(x, y - size);
  pen.lineTo(x + size, y);
  pen.lineTo(x, y + size);
  pen.lineTo(x - size, y);
  pen.closePath();
  pen.lineWidth = 1.8;
  pen.fillStyle = isHollow ? frame.palette.page : fill;
  pen.fill();
  pen.strokeStyle = isHollow ? frame.palette.ink : fill;
  pen.stroke();
}

export function dot(frame, x, y, colour) {
  frame.pen.fillStyle = colour;
  frame.pen.fillRect(x - 1.5, y - 1.5, 3, 3);
}

export function cross(frame, x, y, size, colour) {
  const { pen } = frame;
  pen.lineWidth = 1.8;
  pen.strokeStyle = colour;
  pen.beginPath();
  pen.moveTo(x - size, y - size);
  pen.lineTo(x + size, y + size);
  pen.moveTo(x - size, y + size);
  pen.lineTo(x + size, y - size);
  pen.stroke();
}

/** Words beside a mark, on their own ground: before it where there is room. */
export function sign(frame, words, x, y) {
  const width = words.length * CHARACTER + 8;
  const from = x - 10 - width > frame.left ? x - 10 - width : x + 10;
  frame.pen.fillStyle = frame.palette.mark;
  frame.pen.fillRect(from, y - 7, width, 14);
  frame.text(words, from + 4, y + 4, frame.palette.ink);
}
