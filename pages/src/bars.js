// What bars of connections and of requests have in common.

export const FINE = 3; // a part below so many pixels is put together with its neighbours
export const MARGIN = 3; // above and below a bar in its row

/** The room behind a bar, up to the next one of its row. */
export function roomBehind(frame, bars, at) {
  return at + 1 < bars.length ? frame.x(bars[at + 1].start) - frame.endX(bars[at].end) : frame.right;
}

/** A rim round a bar that is lit. */
export function rim(frame, x0, x1, y, height) {
  const from = Math.max(x0, frame.left) - 2;
  const to = Math.min(Math.max(x1, x0 + 2), frame.right) + 2;
  frame.pen.lineWidth = 2;
  frame.pen.strokeStyle = frame.palette.accent;
  frame.pen.strokeRect(from, y - 1, to - from, height + 2);
}
