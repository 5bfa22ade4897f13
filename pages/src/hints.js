// What may stand where somebody writes in a script: the shape of the line, and words that complete the one that was begun.
import { STEP_WORDS, FIELD_NAMES, OPTION_NAMES } from './steps.js';
import { FLEET_WORDS, PROXY_WORDS, PROXY_STEPS } from './made_up_lines.js';

const WORD_SHAPES = {
  party: 'PARTY', address: 'ADDR', pool: 'POOL', connection: 'CONN', watcher: 'WATCHER', number: 'N', addresses: 'ADDR,ADDR..', use: 'ok|errored|dropped|streaming',
};
const TAIL_SHAPES = {
  established: 'wire=N [sid=OID] [server=N]', failed: 'pre|post ERROR', error: 'ERROR', hello: 'ok rtt=NS [FIELD=VALUE..] | err ERROR',
  beaten: 'ok [FIELD=VALUE..] [more] | err ERROR | cancelled ERROR',
};
const ERROR_WORDS = ['network', 'timeout', 'auth', 'incompatible', 'command.', 'other'];
const USE_WORDS = ['ok', 'errored', 'dropped', 'streaming'];
const WRITTEN_ADDRESS = /[a-z0-9_.-]+:\d+|\[[0-9a-f:.]+\]:\d+/g;
const MOST_WORDS = 6;

/** The shape of a line by its first word, or nothing. */
export function shapeOf(kind) {
  if (kind === 'open') return 'open seeds=ADDR,ADDR.. [OPTION..]';
  if (!Object.hasOwn(STEP_WORDS, kind)) return '';
  return [kind, 'MOMENT', ...STEP_WORDS[kind].map((it) => WORD_SHAPES[it]), TAIL_SHAPES[kind] ?? ''].join(' ').trim();
}

/** What a reply's fields, a failed check's error or a result may go on with. */
function tailWords(words, from) {
  const behind = words.slice(from);
  if (behind.length === 1) return { hello: ['ok rtt=', 'err '], beaten: ['ok ', 'err ', 'cancelled '], failed: ['pre ', 'post '], established: ['wire='], error: ERROR_WORDS }[words[0]] ?? [];
  if (words[0] === 'established') return ['sid=', 'server='];
  if (behind[0] === 'ok') return FIELD_NAMES.map((it) => it + '=');
  return behind.length === 2 && words[0] !== 'error' ? ERROR_WORDS : ['msg='];
}

/** All words that may stand where the last of these does. */
function candidates(words, text) {
  const at = words.length - 1;
  if (at === 0) return ['open seeds=', ...Object.keys(STEP_WORDS).map((it) => it + ' ')];
  if (words[0] === 'open') return at === 1 ? ['seeds='] : OPTION_NAMES;
  const names = STEP_WORDS[words[0]] ?? [];
  const name = names[at - 2];
  if (name === 'address' || name === 'addresses') return [...new Set(text.match(WRITTEN_ADDRESS) ?? [])].sort();
  if (name === 'use') return USE_WORDS;
  return at - 2 >= names.length ? tailWords(words, names.length + 2) : [];
}

/** The shapes and words of lines that a table names beside, or in place of, those of a script. */
function shapeIn(table, first, kind) {
  if (Object.hasOwn(table, kind)) return [kind, 'MOMENT', ...table[kind].map((it) => (it === 'USE' ? WORD_SHAPES.use : it))].join(' ');
  return first.find((it) => it.startsWith(kind + ' ') || it.startsWith(kind + '=')) ?? '';
}

function wordsIn(table, words, text) {
  const name = table[words[0]]?.[words.length - 3];
  if (name === 'ADDR') return [...new Set(text.match(WRITTEN_ADDRESS) ?? [])].sort();
  return name === 'USE' ? USE_WORDS : [];
}

export const scriptHints = { shapeOf, candidates };
export const noHints = { shapeOf: () => '', candidates: () => [] };

export const fleetHints = {
  shapeOf: (kind) => shapeIn(FLEET_WORDS, ['fleet MEMBERS'], kind),
  candidates: (words) => (words.length === 1 ? ['fleet ', ...Object.keys(FLEET_WORDS).map((it) => it + ' ')] : []),
};

export const proxyHints = {
  shapeOf: (kind) => shapeIn(PROXY_WORDS, ['shares=N,N..'], kind) || (kind === 'open' || PROXY_STEPS.includes(kind) ? shapeOf(kind) : ''),
  candidates(words, text) {
    if (words.length === 1) return ['shares=', 'open seeds=', ...Object.keys(PROXY_WORDS).map((it) => it + ' '), ...PROXY_STEPS.map((it) => it + ' ')];
    return Object.hasOwn(PROXY_WORDS, words[0]) ? wordsIn(PROXY_WORDS, words, text) : candidates(words, text);
  },
};

/** What stands at a place of a text: the shape of its line, the word that was begun, and what it may become. */
export function hintAt(text, place, hints = scriptHints) {
  const start = text.lastIndexOf('\n', place - 1) + 1;
  const words = text.slice(start, place).split(' ');
  const begun = words[words.length - 1];
  const isAtEnd = ['', ' ', '\n'].includes(text.charAt(place)); // of a word: nothing is put into one
  const found = isAtEnd ? hints.candidates(words, text).filter((it) => it.startsWith(begun) && it.trim() !== begun) : [];
  return { shape: hints.shapeOf(/^\w*/.exec(text.slice(start))[0]), begun, words: found.slice(0, MOST_WORDS) };
}
