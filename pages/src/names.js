// What the words of an entry name: connections, parties, pools and addresses.
import { STEP_WORDS } from './steps.js';

const PLACE = /^\d+\.\d+$/;
const NUMBER = /^\d+$/;

/** The kind of each word of a step: that of its place in the line. */
function stepKinds(words) {
  if (words[0] === 'open') return ['', 'seeds'];
  return ['', '', ...(STEP_WORDS[words[0]] ?? [])];
}

const FACT_KINDS = { Opened: ['', 'pool', 'address'], Granted: ['', 'party', 'place'], Ended: ['', 'party'], Raised: ['', 'pool'], CheckNow: ['', 'address'], Cancel: ['', 'address'] };
const REPLY_KINDS = { Pooled: ['', 'place'], Establishing: ['', 'place'], Job: ['', 'place'] };

function factKinds(words) {
  if (words[0] === 'Pool') return ['', 'pool', '', 'address', words[2].startsWith('Connection') && NUMBER.test(words[4] ?? '') ? 'connection' : ''];
  if (words[0] === 'Sdam') return ['', '', words[1].startsWith('Server') ? 'address' : ''];
  return FACT_KINDS[words[0]] ?? [];
}

/** The words of a part, each with the thing that it names, if it names one. */
function tokens(words, kinds) {
  let pool = null;
  words.forEach((word, at) => {
    if (kinds[at] === 'pool') pool = Number(word);
  });
  return words.map((text, at) => {
    const kind = kinds[at] ?? '';
    if (kind === 'place' && PLACE.test(text)) return { text, names: { kind: 'connection', key: text } };
    if (kind === 'connection') return { text, names: { kind: 'connection', key: pool + '.' + text } };
    if (kind === 'party' || kind === 'pool') return { text, names: { kind, key: Number(text) } };
    if (kind === 'address') return { text, names: { kind, key: text } };
    return { text, names: null };
  });
}

/** An entry's line by its parts: the step, the reply, the facts. */
export function partsOf(line) {
  return line.split(' | ').map((part, at) => {
    const words = part.split(' ');
    const kinds = at === 0 ? stepKinds(words) : at === 1 ? (REPLY_KINDS[words[0]] ?? []) : factKinds(words);
    return { role: at === 0 ? 'step' : at === 1 ? 'reply' : 'fact', tokens: tokens(words, kinds) };
  });
}

/** The thing of a history that a name stands for, or nothing. */
export function thingOf(history, name) {
  if (name.kind === 'party') return history.requests.get(name.key) ?? null;
  if (name.kind === 'pool') return history.pools.get(name.key) ?? null;
  if (name.kind === 'address') return history.servers.get(name.key) ?? null;
  const [pool, number] = name.key.split('.').map(Number);
  return history.pools.get(pool)?.connections.get(number) ?? null;
}

/** Whether the party has the connection, or is to have it, when the entry comes. */
const hasThen = (request, entry) => request.connection && request.granted <= entry && (request.end < 0 || request.end >= entry);

/** All that an entry names, and what belongs to it: a party's connection, a connection's pool, its server. */
export function namedBy(history, log, entry) {
  const found = new Set();
  for (const part of history.isRead[entry] === 1 ? log.parts(entry) : []) {
    for (const token of part.tokens) {
      const thing = token.names === null ? null : thingOf(history, token.names);
      if (thing !== null) found.add(thing);
      if (thing !== null && token.names.kind === 'party' && hasThen(thing, entry)) found.add(thing.connection);
    }
  }
  for (const thing of [...found]) addHome(history, found, thing);
  return found;
}

export function addHome(history, found, thing) {
  if (thing.pool) {
    found.add(thing.pool);
    found.add(history.servers.get(thing.pool.address));
  } else if (thing.address !== undefined && history.servers.has(thing.address)) found.add(history.servers.get(thing.address));
}
