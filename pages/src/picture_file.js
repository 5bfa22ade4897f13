// The picture as a file: all lanes, as wide as they are on the screen, with the strip and the axis above.
import { paintLanes } from './painter.js';
import { paintHead, HEAD } from './paint_head.js';

const MOST_HEIGHT = 16000; // pixels of a picture's height

/** A PNG of the part of the log that is in view, or nothing where the browser makes none. */
export function pictureFile(picture, height) {
  const ratio = window.devicePixelRatio || 1;
  const whole = Object.assign(Object.create(picture), { height: Math.min(height, MOST_HEIGHT / ratio - HEAD), scroll: 0 });
  const canvas = Object.assign(document.createElement('canvas'), { width: Math.round(picture.width * ratio), height: Math.round((whole.height + HEAD) * ratio) });
  const pen = canvas.getContext('2d');
  pen.scale(ratio, ratio);
  paintHead(pen, whole);
  pen.translate(0, HEAD);
  paintLanes(pen, whole);
  return new Promise((done) => canvas.toBlob(done, 'image/png'));
}
