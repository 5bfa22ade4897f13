// Grants: a line from the request, where it was granted, to the connection that it got.
import { HEIGHTS, rowIn } from './layout.js';

const CLOSE = 3; // pixels; of lines that are closer the first is drawn, and those that are lit
const HEAD_ROOM = 6; // pixels; closer lines have no heads

function line(frame, x, from, to, isLit, hasHead) {
  const { pen, palette } = frame;
  pen.fillStyle = isLit ? palette.accent : palette.grant;
  const [top, bottom] = [Math.max(Math.min(from, to), 0), Math.min(Math.max(from, to), frame.height)];
  pen.fillRect(Math.round(x), top, isLit ? 2 : 1, bottom - top);
  if (hasHead) {
    pen.fillStyle = isLit ? palette.accent : palette.ink;
    pen.beginPath();
    pen.moveTo(x - 3, to + 5);
    pen.lineTo(x + 4, to + 5);
    pen.lineTo(x + 0.5, to);
    pen.closePath();
    pen.fill();
  }
}

/** The first grant in the list at or behind a place on the axis. */
function firstFrom(frame, grants, place, from) {
  let low = from;
  let high = grants.length;
  while (low < high) {
    const middle = (low + high) >> 1;
    if (frame.scale.at(grants[middle].entry) < place) low = middle + 1;
    else high = middle;
  }
  return low;
}

function paintGrant(frame, lanes, grant, hasHead) {
  const row = rowIn(lanes.requests, grant.request);
  if (row < 0) return false;
  const x = frame.x(grant.entry);
  const to = lanes.connections.y - frame.top + (grant.connection.row + 1) * HEIGHTS.connections - 3;
  const from = lanes.requests.y - frame.top + row * HEIGHTS.requests + HEIGHTS.requests / 2;
  const isSeen = from >= 0 && to <= frame.height && x >= frame.left && x <= frame.right;
  if (isSeen) line(frame, x, from, to, frame.isLit(grant.request), hasHead || frame.isLit(grant.request));
  return isSeen;
}

/** The grants of a pool in view. From one that is drawn the next is sought behind it, not one by one. */
export function paintGrants(frame, lanes) {
  const { grants } = lanes.connections.pool;
  const first = firstFrom(frame, grants, frame.from, 0);
  const end = firstFrom(frame, grants, frame.picture.view.to, first);
  frame.drawn.grants += end - first;
  let column = -Infinity;
  let at = first;
  while (at < end) {
    const x = frame.x(grants[at].entry);
    const isDrawn = paintGrant(frame, lanes, grants[at], x - column > HEAD_ROOM);
    if (isDrawn) column = x;
    at = isDrawn ? Math.max(at + 1, firstFrom(frame, grants, frame.from + (x + CLOSE - frame.left) / frame.factor, at)) : at + 1;
  }
  for (const thing of frame.picture.lit) {
    if (thing.granted >= 0 && thing.kind !== 'take' && thing.pool === lanes.connections.pool) paintGrant(frame, lanes, { entry: thing.granted, request: thing, connection: thing.connection }, true);
  }
}
