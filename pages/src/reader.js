// A printed log: one entry a line, LINE | REPLY | FACT | FACT ..
import { Unreadable, unreadable } from './words.js';
import { readStep } from './steps.js';
import { readReply, readFact } from './facts.js';
import { partsOf } from './names.js';

export const UNPRINTABLE = /[^ -~]/;

/** The entry that a line shows. Facts that follow each other are in `facts`; a throw says why there is none. */
export function readEntry(line) {
  if (line === '') unreadable('an empty line', line);
  if (UNPRINTABLE.test(line)) unreadable('a character that no log has', line);
  const parts = line.split(' | ');
  if (parts.length < 2) unreadable('no reply behind the step', line);
  const entry = { step: readStep(parts[0]), reply: readReply(parts[1]), facts: [] };
  for (let at = 2; at < parts.length; at += 1) entry.facts.push(readFact(parts[at]));
  return entry;
}

/** Why an entry cannot stand on this line, or nothing. */
function misplaced(entry, number) {
  if (number === 1 && entry.step.kind !== 'open') return 'the first line opens no seeds: the log is drawn as a part of a longer one';
  return null;
}

/** The lines of a text: where each begins and ends. The last one may lack its newline. */
export function linesOf(text) {
  const starts = [];
  let at = 0;
  while (at < text.length) {
    starts.push(at);
    const newline = text.indexOf('\n', at);
    at = newline < 0 ? text.length + 1 : newline + 1;
  }
  starts.push(at);
  return Float64Array.from(starts);
}

/** Reads lines as readEntry does, and keeps what it read: for a log that is read again and again with few lines changed. */
export function keepingReader(most) {
  const kept = new Map();
  return (line) => {
    if (!kept.has(line)) {
      if (kept.size >= most) kept.clear();
      kept.set(line, readEntry(line));
    }
    return kept.get(line);
  };
}

/** Reads the lines from one to another, hands each entry with its line's index on, and notes what cannot be read. */
export function readLines(log, from, to, take, read = readEntry) {
  for (let at = from; at < to; at += 1) {
    const line = log.line(at);
    try {
      const entry = read(line);
      if (at > 0 && entry.step.kind === 'open') unreadable('only the first line opens', line);
      const note = misplaced(entry, at + 1);
      if (note !== null) log.unread.push({ line: at, why: note, isDrawn: true });
      take(at, entry);
    } catch (fault) {
      if (!(fault instanceof Unreadable)) throw fault;
      log.unread.push({ line: at, why: fault.why, isDrawn: false });
    }
  }
}

/** A text with its lines, and what of it could not be read. */
export class Log {
  constructor(name, text) {
    this.name = name;
    this.text = text.includes('\r') ? text.replaceAll('\r\n', '\n') : text;
    this.starts = linesOf(this.text);
    this.count = this.starts.length - 1;
    this.unread = [];
  }

  line(at) {
    return this.text.slice(this.starts[at], this.starts[at + 1] - 1);
  }

  /** An entry by its parts, with what their words name. */
  parts(at) {
    return partsOf(this.line(at));
  }

  /** A last line without newline is drawn where it can be read: it may be cut. */
  noteEnd() {
    const isCut = this.count > 0 && !this.text.endsWith('\n');
    if (isCut && !this.unread.some((it) => it.line === this.count - 1)) {
      this.unread.push({ line: this.count - 1, why: 'no newline at its end: it may be cut', isDrawn: true });
    }
  }
}
