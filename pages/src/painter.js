// Paints the lanes that are in view.
import { Frame, TEXT_FONT, LABEL_FONT, BOLD_FONT } from './frame.js';
import { firstLaneFrom } from './layout.js';
import { paintTopology, paintServer } from './paint_servers.js';
import { paintPool, paintErrors } from './paint_pools.js';
import { paintConnections } from './paint_connections.js';
import { paintRequests } from './paint_requests.js';
import { paintGrants } from './paint_grants.js';

/** The rows of a lane that are in view, each with its height on the canvas. */
function paintRows(frame, lane, y, paint) {
  const from = Math.max(0, Math.floor(-y / lane.rowHeight));
  for (let row = from; row < lane.rows.length; row += 1) {
    const at = y + row * lane.rowHeight;
    if (at > frame.height) break;
    paint(frame, lane.rows[row], at, lane.rowHeight);
  }
}

const PAINTERS = {
  topology: paintTopology,
  server: paintServer,
  pool: paintPool,
  connections: (frame, lane, y) => paintRows(frame, lane, y, paintConnections),
  requests: (frame, lane, y) => paintRows(frame, lane, y, paintRequests),
};

function paintGround(frame, lane, y) {
  const { pen, palette } = frame;
  pen.fillStyle = lane.kind === 'connections' || lane.kind === 'requests' ? palette.page : palette.lane;
  pen.fillRect(0, y, frame.right, lane.height);
  pen.fillStyle = palette.line;
  for (const x of frame.picture.tickPlaces) if (x >= frame.left) pen.fillRect(Math.round(x), y, 1, lane.height);
  if (lane.kind === 'server' || lane.kind === 'topology') pen.fillRect(0, y, frame.right, 1);
}

const DETAILS = {
  topology: () => ['Topology', '✕ refused steps'],
  server: (lane, frame) => [lane.server.address, frame.tripsMost ? 'round trips ≤ ' + frame.tripsMost : ''],
  pool: (lane, frame) => [`Pool ${lane.pool.number}`, frame.waited > 0 ? `waiting ≤ ${frame.waited}` : `${lane.pool.connections.size} ${lane.pool.connections.size === 1 ? 'connection' : 'connections'}`],
  connections: () => ['connections', ''],
  requests: () => ['requests', ''],
};

/** The names of lanes, at the left of the bars, or over them where the picture is narrow. */
function paintName(frame, lane, y) {
  const { pen, palette, picture } = frame;
  const [title, detail] = DETAILS[lane.kind](lane, frame);
  const isSmall = lane.kind === 'connections' || lane.kind === 'requests';
  const isLit = frame.isLit(lane.server) && !isSmall && (lane.kind === 'server' || frame.isLit(lane.pool));
  pen.fillStyle = isSmall ? palette.page : palette.lane;
  if (frame.left > 0) pen.fillRect(0, y + 1, frame.left - 1, lane.height - 1);
  if (isLit) {
    pen.fillStyle = palette.accent;
    pen.fillRect(0, y, 4, lane.height);
  }
  pen.font = isSmall ? TEXT_FONT : lane.kind === 'pool' ? LABEL_FONT : BOLD_FONT;
  const under = Math.max(y, 0);
  const room = frame.left > 0 ? frame.left - 16 : picture.width / 2;
  const isFolded = lane.kind === 'pool' && picture.isFolded(lane.pool);
  const words = lane.kind === 'pool' ? (isFolded ? '▸ ' : '▾ ') + title : title;
  pen.save();
  pen.beginPath();
  pen.rect(0, under, room + 14, lane.height);
  pen.clip();
  const shift = frame.left > 0 ? 15 : lane.kind === 'server' ? 34 : lane.kind === 'topology' ? 0 : 14;
  if (shift > 0 && (frame.left > 0 || !isSmall)) frame.text(words, 10, under + Math.min(shift, lane.height - 3), isSmall ? palette.muted : palette.ink, frame.left === 0);
  pen.font = TEXT_FONT;
  if (detail !== '' && frame.left > 0) frame.text(detail, 10, y + 31, palette.muted);
  pen.restore();
}

/** The two marks, and a veil between them. */
function paintMarks(frame) {
  const { picture, pen, palette } = frame;
  const places = picture.marks.map((it) => Math.min(Math.max(frame.x(it), frame.left - 2), frame.right + 2));
  if (places.length === 2) {
    pen.globalAlpha = 0.1;
    frame.box(palette.accent, places[0], places[1], 0, frame.height);
    pen.globalAlpha = 1;
  }
  pen.setLineDash([4, 3]);
  pen.lineWidth = 1.5;
  pen.strokeStyle = palette.accent;
  places.forEach((x, at) => {
    if (x < frame.left || x > frame.right) return;
    pen.beginPath();
    pen.moveTo(x, 0);
    pen.lineTo(x, frame.height);
    pen.stroke();
    pen.font = BOLD_FONT;
    frame.text('AB'[at], x + 3, frame.height - 6, palette.accent, true);
  });
  pen.setLineDash([]);
}

function paintCursor(frame) {
  const { picture, pen, palette } = frame;
  if (picture.entry < 0) return;
  const x = frame.x(picture.entry);
  if (x < frame.left || x > frame.right) return;
  pen.fillStyle = palette.accent;
  pen.fillRect(Math.round(x) - 0.5, 0, 1.5, frame.height);
}

function paintLane(frame, lane, y, lanes, at) {
  const { pen } = frame;
  paintGround(frame, lane, y);
  pen.save();
  pen.beginPath();
  pen.rect(frame.left, y, frame.width, lane.height);
  pen.clip();
  pen.font = TEXT_FONT;
  PAINTERS[lane.kind](frame, lane, y);
  pen.restore();
  paintName(frame, lane, y);
  const above = lanes[at - 1];
  if (lane.kind === 'requests' && above !== undefined && above.kind === 'connections') paintPair(frame, above, lane);
}

/** What goes across the connections and the requests of a pool. */
function paintPair(frame, connections, requests) {
  const { pen } = frame;
  pen.save();
  pen.beginPath();
  pen.rect(frame.left, 0, frame.width, frame.height);
  pen.clip();
  paintGrants(frame, { connections, requests });
  pen.font = TEXT_FONT;
  paintErrors(frame, connections, connections.y - frame.top);
  pen.restore();
}

export function paintLanes(pen, picture) {
  const frame = new Frame(pen, picture);
  pen.fillStyle = picture.palette.page;
  pen.fillRect(0, 0, picture.width, picture.height);
  const { lanes } = picture;
  for (let at = firstLaneFrom(lanes, picture.scroll); at < lanes.length; at += 1) {
    const y = lanes[at].y - picture.scroll;
    const isPaired = lanes[at].kind === 'requests' && lanes[at - 1]?.kind === 'connections';
    if (y > frame.height && !(isPaired && lanes[at - 1].y - picture.scroll <= frame.height)) break;
    paintLane(frame, lanes[at], y, lanes, at);
  }
  paintMarks(frame);
  paintCursor(frame);
  return frame.drawn;
}
