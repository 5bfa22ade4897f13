// The lines of a made-up replica set and of a proxy: what may stand in them, and why one does not.
import { STEP_WORDS, readStep } from './steps.js';
import { Unreadable, unreadable, number32, number64, address, oneOf } from './words.js';

const USE = ['ok', 'errored', 'dropped', 'streaming'];
const PLACE_READERS = { MEMBER: number32, REPLY: number32, TENANT: number32, PARTY: number32, ADDR: address, USE: oneOf(...USE) };
const MOST_MEMBERS = 50;
const MOST_TENANTS = 64;
const MAX = 10; // connections of a pool where the opening names none

/** What each event of a made-up set is, behind its moment. */
export const FLEET_WORDS = { elect: ['MEMBER'], down: ['MEMBER'], reconf: ['MEMBER'], ask: ['MEMBER'], deliver: ['REPLY'], lose: ['MEMBER'] };

/** The lines of a proxy alone; it takes some of a driver's beside them. */
export const PROXY_WORDS = { ask: ['TENANT', 'PARTY', 'ADDR'], collect: ['PARTY'], finish: ['PARTY', 'USE'] };
export const PROXY_STEPS = ['claim', 'established', 'failed', 'error', 'hello', 'beat', 'beaten', 'rtt', 'hosts', 'ctime', 'want', 'unwant', 'stop', 'expire'];

function readLine(table, words, line) {
  const names = table[words[0]];
  if (words.length !== names.length + 2) unreadable('too few or too many words', line);
  number64(words[1]);
  names.forEach((name, at) => PLACE_READERS[name](words[at + 2]));
}

function readFleet(line, number) {
  const words = line.split(' ');
  if (number === 1) {
    if (words[0] !== 'fleet' || words.length !== 2) unreadable('the first line is no fleet with its number of members', line);
    const many = number32(words[1]);
    if (many < 1 || many > MOST_MEMBERS) unreadable(`not 1 to ${MOST_MEMBERS} members`, words[1]);
  } else if (Object.hasOwn(FLEET_WORDS, words[0])) readLine(FLEET_WORDS, words, line);
  else unreadable('no event', line);
}

function readShares(line) {
  if (!line.startsWith('shares=')) unreadable('the first line names no shares', line);
  const shares = line.slice(7).split(',').map(number32);
  if (shares.length > MOST_TENANTS || shares.includes(0)) unreadable(`not 1 to ${MOST_TENANTS} shares above 0`, line);
}

function readOpening(line, shares) {
  const { options } = readStep(line);
  const sum = shares.slice(7).split(',').reduce((all, it) => all + Number(it), 0);
  if (sum > (options?.max ?? MAX)) unreadable(`fewer connections than the shares, ${sum}`, line);
}

function readProxy(line, number, first) {
  const [kind, ...rest] = line.split(' ');
  if (number === 1) readShares(line);
  else if (number === 2) {
    if (kind !== 'open') unreadable('the second line does not open', line);
    readOpening(line, first);
  } else if (Object.hasOwn(PROXY_WORDS, kind)) readLine(PROXY_WORDS, [kind, ...rest], line);
  else if (PROXY_STEPS.includes(kind) && Object.hasOwn(STEP_WORDS, kind)) readStep(line);
  else unreadable('no line of a proxy', line);
}

/** Why a line cannot be read, in words, or nothing where this page finds no reason. `first` is the first line of its text. */
export function whyNot(read, line, number, first) {
  try {
    read(line, number, first);
    return '';
  } catch (fault) {
    if (!(fault instanceof Unreadable)) throw fault;
    return fault.why;
  }
}

export const whyNoFleet = (line, number) => whyNot(readFleet, line, number);
export const whyNoProxy = (line, number, first) => whyNot(readProxy, line, number, first);
