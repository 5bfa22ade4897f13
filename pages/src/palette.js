// Colours by the page's theme, and the hatches that tell places apart without colour.

const NAMES = ['page', 'lane', 'ink', 'muted', 'line', 'pending', 'available', 'held', 'pinned', 'waiting', 'bad', 'warn', 'accent',
  'onheld', 'primary', 'onprimary', 'secondary', 'onsecondary', 'other', 'onother', 'none', 'onnone', 'unknown', 'mark'];

function hatch(context, colour, background, ratio, slope) {
  const size = 6 * ratio;
  const canvas = document.createElement('canvas');
  canvas.width = size;
  canvas.height = size;
  const pen = canvas.getContext('2d');
  pen.fillStyle = background;
  pen.fillRect(0, 0, size, size);
  pen.strokeStyle = colour;
  pen.lineWidth = 1.6 * ratio;
  for (const shift of [-size, 0, size]) {
    pen.beginPath();
    pen.moveTo(shift, slope > 0 ? size : 0);
    pen.lineTo(shift + size, slope > 0 ? 0 : size);
    pen.stroke();
  }
  const pattern = context.createPattern(canvas, 'repeat');
  pattern.setTransform(new DOMMatrix().scale(1 / ratio));
  return pattern;
}

export function paletteOf(context, ratio) {
  const style = getComputedStyle(document.documentElement);
  const found = {};
  for (const name of NAMES) found[name] = style.getPropertyValue('--' + name).trim();
  found.grant = found.ink + '59'; // a third of the ink
  found.pendingHatch = hatch(context, found.pending, found.page, ratio, 1);
  found.pinnedHatch = hatch(context, found.onheld, found.pinned, ratio, -1);
  found.unknownHatch = hatch(context, found.unknown, found.page, ratio, -1);
  return found;
}

const TYPE_COLOURS = { RsPrimary: ['primary', 'onprimary'], RsSecondary: ['secondary', 'onsecondary'], Unknown: ['unknownHatch', 'ink'] };
const MAIN_TYPES = new Set(['Standalone', 'Mongos', 'LoadBalancer']);

const TOPOLOGY_COLOURS = {
  ReplicaSetNoPrimary: ['none', 'onnone'], Unknown: ['unknownHatch', 'ink'], ReplicaSetWithPrimary: ['primary', 'onprimary'],
  Sharded: ['secondary', 'onsecondary'], Single: ['other', 'onother'], LoadBalanced: ['pinned', 'onheld'],
};

/** The colours of a topology's type: that of no primary stands out. */
export function topologyColours(palette, type) {
  const [band, text] = TOPOLOGY_COLOURS[type] ?? ['secondary', 'onsecondary'];
  return [palette[band], palette[text]];
}

/** The colours of a server's type: of its band, and of the text in it. */
export function typeColours(palette, type) {
  const [band, text] = TYPE_COLOURS[type] ?? (MAIN_TYPES.has(type) ? ['primary', 'onprimary'] : ['other', 'onother']);
  return [palette[band], palette[text]];
}
