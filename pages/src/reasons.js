// What is said of a line that does no step: what the library or the program tells, and why, as this page reads the grammar.
import { STATUS } from './library.js';
import { readStep } from './steps.js';
import { unreadable } from './words.js';
import { whyNot } from './made_up_lines.js';
import { UNPRINTABLE } from './reader.js';

function read(line) {
  if (line === '') unreadable('an empty line', line);
  if (UNPRINTABLE.test(line)) unreadable('a character that no script has', line);
  readStep(line);
}

const behind = (why) => (why === '' ? '' : ': ' + why);

/** A malformed line, with the reason that this page finds, if it finds one. */
export const malformedText = (line, why) => `line ${line + 1} is malformed${behind(why)}`;

/** The reason in words, of the line's text and the status of its call. */
export function reasonOf({ line, status, text }) {
  if (status === STATUS.malformed) return malformedText(line, whyNot(read, text, line + 1));
  if (status === STATUS.closed) return `line ${line + 1} comes before the line that opens`;
  if (status === STATUS.opened) return `line ${line + 1} opens once more`;
  if (status === STATUS.memory) return `line ${line + 1}: there is no memory left`;
  return status === null ? `line ${line + 1}: ${text}` : `line ${line + 1}: status ${status}`;
}

/** What the auditor's word says of an entry. */
export const VERDICTS = {
  spelling: 'it is not spelled as a log is, stands in the wrong place, or has no newline',
  opening: 'the opening is refused, or its facts are not exactly the seeds',
  grant: 'a connection is granted that was not created before it or is not of the pool, or to one that does not wait, or while another has waited longer',
  place: 'a connection is at no place or at two, or is closed that was closed or never created',
  waiting: 'a caller waits though its pool is ready and has a connection or may create one',
};
