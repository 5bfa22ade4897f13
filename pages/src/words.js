// The words of a line: numbers, addresses, ids, errors. Each reader gives the word's value, or throws an Unreadable.

/** What cannot be read, in words. It is no Error: a log of many bad lines would pay for a stack trace each. */
export class Unreadable {
  constructor(why) {
    this.why = why;
  }
}

const SHOWN = 60; // characters of a bad word that are told

export function unreadable(what, text) {
  const shown = text.length > SHOWN ? text.slice(0, SHOWN) + '…' : text;
  throw new Unreadable(`${what}: '${shown}'`);
}

const MOST_16 = '65535';
const MOST_31 = '2147483647';
const MOST_32 = '4294967295';
const MOST_63 = '9223372036854775807';
const MOST_64 = '18446744073709551615';

function isDecimal(text, most) {
  if (text.length === 0 || text.length > most.length) return false;
  for (let at = 0; at < text.length; at += 1) {
    const code = text.charCodeAt(at);
    if (code < 48 || code > 57) return false;
  }
  if (text.length > 1 && text.charCodeAt(0) === 48) return false;
  return text.length < most.length || text <= most;
}

function decimal(text, most) {
  return isDecimal(text, most) ? Number(text) : unreadable('no number up to ' + most, text);
}

export const number31 = (text) => decimal(text, MOST_31);
export const number32 = (text) => decimal(text, MOST_32);
export const number63 = (text) => decimal(text, MOST_63);
export const number64 = (text) => decimal(text, MOST_64);

/** A whole number of 64 bits with its sign, or nothing. */
export function signedOrDash(text) {
  if (text === '-') return null;
  return decimal(text.startsWith('-') ? text.slice(1) : text, MOST_64) * (text.startsWith('-') ? -1 : 1);
}

export const orDash = (reader) => (text) => (text === '-' ? null : reader(text));

export function oneOf(...words) {
  const known = new Set(words);
  return (text) => (known.has(text) ? text : unreadable('none of ' + words.join(', '), text));
}

export const flag = oneOf('true', 'false');

const WORD = /^[A-Za-z0-9_.-]{1,64}$/;
const ID = /^[0-9a-f]{24}$/;
const NAME_HOST = /^[a-z0-9_.-]{1,255}$/;
const V6_HOST = /^\[[0-9a-f.]*:[0-9a-f:.]*\]$/;

export const word = (text) => (WORD.test(text) ? text : unreadable('no word', text));
export const id = (text) => (ID.test(text) ? text : unreadable('no id of 24 digits', text));

function isAddress(text) {
  const colon = text.lastIndexOf(':');
  if (colon < 1) return false;
  const host = text.slice(0, colon);
  const isHost = host[0] === '[' ? V6_HOST.test(host) && host.length >= 4 && host.length <= 47 : NAME_HOST.test(host);
  const port = text.slice(colon + 1);
  return isHost && port !== '0' && isDecimal(port, MOST_16);
}

const addresses = new Set(); // those that were read before

export function address(text) {
  if (addresses.has(text)) return text;
  if (!isAddress(text)) unreadable('no address', text);
  addresses.add(text);
  return text;
}

const MOST_ADDRESSES = 128;

export function addressList(text) {
  const found = text.split(',').map(address);
  if (found.length > MOST_ADDRESSES || new Set(found).size !== found.length) unreadable('not 1 to 128 different addresses', text);
  return found;
}

/** A connection, as 0.1. */
export function place(text) {
  const dot = text.indexOf('.');
  if (dot < 0) unreadable('no connection', text);
  return { pool: number32(text.slice(0, dot)), connection: number32(text.slice(dot + 1)) };
}

export function version(text) {
  const dot = text.indexOf('.');
  if (dot < 0) unreadable('no topology version', text);
  id(text.slice(0, dot));
  number63(text.slice(dot + 1));
  return text;
}

export function tags(text) {
  const names = text.split(',').map((pair) => {
    const colon = pair.indexOf(':');
    word(pair.slice(colon + 1));
    return word(pair.slice(0, Math.max(colon, 0)));
  });
  if (names.some((name, at) => at > 0 && names[at - 1] >= name)) unreadable('tags out of order', text);
  return text;
}

const KINDS = new Set(['network', 'timeout', 'auth', 'incompatible', 'other']);
const MOST_LABELS = 8;
const MOST_MESSAGE = 256;

function kind(text) {
  if (KINDS.has(text)) return text;
  if (!text.startsWith('command.')) unreadable('no kind of error', text);
  number31(text.slice(8));
  return text;
}

/** An error: its kind, labels and version where it has them, and its message, which goes to the end. */
export function error(text) {
  const words = text.split(' ');
  const found = { kind: kind(words[0]), text };
  let at = 1;
  if (words[at] !== undefined && words[at].startsWith('labels=')) {
    const labels = words[at].slice(7).split(',').map(word);
    if (labels.length > MOST_LABELS) unreadable('more than 8 labels', text);
    at += 1;
  }
  if (words[at] !== undefined && words[at].startsWith('tv=')) {
    version(words[at].slice(3));
    at += 1;
  }
  const message = words.slice(at).join(' ');
  if (!message.startsWith('msg=') || message.length > MOST_MESSAGE + 4 || message.includes('|')) unreadable('no message of an error', message);
  return found;
}
