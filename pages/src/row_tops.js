// Where the rows of a list begin: each is as high as its text is at the list's width.
const ROW_LINE = 20; // pixels of a line of text
const ROW_EDGES = 4; // above and below the text of a row
const ROW_SIDES = 44; // beside it, with the sign and the bar to scroll by
const ROW_LETTER = 13; // pixels: no letter of a row is wider

const rowPen = document.createElement('canvas').getContext('2d');

/** How many lines of so many pixels a text takes; a word that is longer than a line goes on in the next. */
function rowLinesOf(text, room) {
  if (text.length * ROW_LETTER <= 2 * room) return 2;
  let lines = 1;
  let used = 0;
  for (const word of text.split(/(?<= )/)) {
    const width = rowPen.measureText(word).width * 1.05;
    if (used > 0 && used + width > room) {
      lines += 1;
      used = 0;
    }
    const more = Math.floor((used + width) / room);
    lines += more;
    used = used + width - more * room;
  }
  return Math.max(lines, 2);
}

/** The tops of rows that have two lines at least, and behind them the height of all. */
export function wrappedTops(texts, width, font) {
  const tops = new Float64Array(texts.length + 1);
  const room = Math.max(width - ROW_SIDES, 60);
  rowPen.font = font;
  texts.forEach((text, at) => {
    tops[at + 1] = tops[at] + ROW_LINE * rowLinesOf(text, room) + ROW_EDGES;
  });
  return tops;
}

/** The same of rows that are all as high. */
export function evenTops(count, height) {
  return Float64Array.from({ length: count + 1 }, (_, at) => at * height);
}

/** The row at a height. */
export function rowAt(tops, height) {
  let from = 0;
  let to = Math.max(tops.length - 2, 0);
  while (from < to) {
    const middle = (from + to + 1) >> 1;
    if (tops[middle] <= height) from = middle;
    else to = middle - 1;
  }
  return from;
}
