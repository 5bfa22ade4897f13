// The reply and the facts of an entry.
import { unreadable, number32, number64, signedOrDash, orDash, oneOf, flag, id, address, place, error } from './words.js';

const ENDS_WITH_ERROR = new Set(['Cleared', 'Failed']);
const PLAIN_ENDS = new Set(['Closed', 'Warmed', 'Filled', 'GaveUp', 'TimedOut']);

function cut(text) {
  const space = text.indexOf(' ');
  return space < 0 ? [text, ''] : [text.slice(0, space), text.slice(space + 1)];
}

/** How a request ends: a word, behind two of them an error. */
function end(text) {
  const [name, rest] = cut(text);
  if (ENDS_WITH_ERROR.has(name)) return { name, error: error(rest) };
  return PLAIN_ENDS.has(text) ? { name, error: null } : unreadable('no end of a request', text);
}

const REFUSALS = new Set(['UnknownServer', 'RequestKnown', 'UnknownRequest', 'NotHolder', 'NotPending', 'Unpinned', 'PinInUse',
  'PinState', 'CheckRunning', 'NotChecking', 'WrongMode']);
const LADEN = { TimeBack: number64, Exhausted: oneOf('pool', 'generation', 'monitor', 'servers') };

function refusal(text) {
  const [name, rest] = cut(text);
  if (Object.hasOwn(LADEN, name)) LADEN[name](rest);
  else if (!REFUSALS.has(text)) unreadable('no refusal', text);
  return text;
}

const PLAIN_REPLIES = new Set(['Waiting', 'NoJob', 'Done']);
const REPLIES = { Pooled: place, Establishing: place, Job: place, Ended: end, Changed: flag, Count: number64, Refused: refusal };

export function readReply(text) {
  const [name, rest] = cut(text);
  if (Object.hasOwn(REPLIES, name)) return { kind: name, value: REPLIES[name](rest) };
  return PLAIN_REPLIES.has(text) ? { kind: name, value: null } : unreadable('no reply', text);
}

const valued = (name, reader) => (text) => (text.startsWith(name + '=') ? reader(text.slice(name.length + 1)) : unreadable(`no ${name}=`, text));
const service = orDash(id);
const milliseconds = number64;

/** What each word of an event of a pool is, behind its name. */
const POOL_EVENTS = {
  PoolReady: [['address', address]],
  PoolClosed: [['address', address]],
  PoolCleared: [['address', address], ['service', valued('service', service)], ['interrupt', valued('interrupt', flag)]],
  ConnectionCreated: [['address', address], ['connection', number32]],
  ConnectionReady: [['address', address], ['connection', number32], ['milliseconds', milliseconds]],
  ConnectionClosed: [['address', address], ['connection', number32], ['reason', oneOf('Stale', 'Idle', 'Error', 'Dropped', 'PoolClosed')], ['service', valued('service', service)]],
  ConnectionCheckoutStarted: [['address', address]],
  ConnectionCheckoutFailed: [['address', address], ['reason', oneOf('Timeout', 'ConnectionError', 'PoolClosed')], ['milliseconds', milliseconds]],
  ConnectionCheckedOut: [['address', address], ['connection', number32], ['milliseconds', milliseconds]],
  ConnectionCheckedIn: [['address', address], ['connection', number32]],
};

const SIZES = [['max', valued('max', orDash(number32))], ['min', valued('min', orDash(number32))], ['idle', valued('idle', orDash(number64))]];
const serverType = oneOf('Standalone', 'Mongos', 'RsPrimary', 'RsSecondary', 'RsArbiter', 'RsOther', 'RsGhost', 'Unknown', 'LoadBalancer');
const topologyType = oneOf('Unknown', 'Single', 'Sharded', 'ReplicaSetNoPrimary', 'ReplicaSetWithPrimary', 'LoadBalanced');

function topology(text) {
  const slash = text.indexOf('/');
  if (slash < 0) unreadable('no topology', text);
  return { type: topologyType(text.slice(0, slash)), servers: number64(text.slice(slash + 1)) };
}

const BEAT = [['address', address], ['awaited', valued('awaited', flag)], ['driver', valued('driver', number32)], ['server', valued('server', signedOrDash)]];
const duration = ['duration', valued('duration', number64)];

const SDAM_EVENTS = {
  TopologyOpening: [], TopologyClosed: [],
  ServerOpening: [['address', address]], ServerClosed: [['address', address]],
  ServerDescriptionChanged: [['address', address], ['before', serverType], ['after', serverType]],
  TopologyDescriptionChanged: [['before', topology], ['after', topology]],
  ServerHeartbeatStarted: BEAT,
  ServerHeartbeatSucceeded: [...BEAT, duration],
};

/** The words from a place on, each by its reader, and no more words. */
function fill(fact, words, from, shape) {
  if (words.length !== from + shape.length) unreadable('too few or too many words', words.join(' '));
  for (let at = 0; at < shape.length; at += 1) fact[shape[at][0]] = shape[at][1](words[from + at]);
  return fact;
}

function poolEvent(words) {
  const fact = { kind: words[2], pool: number32(words[1] ?? '') };
  if (words[2] === 'PoolCreated') return fill(fact, words, 3, words.length === 5 && words[4] === '-' ? [['address', address], ['sizes', orDash(unreadable)]] : [['address', address], ...SIZES]);
  return Object.hasOwn(POOL_EVENTS, words[2] ?? '') ? fill(fact, words, 3, POOL_EVENTS[words[2]]) : unreadable('no event of a pool', words.join(' '));
}

function sdamEvent(words) {
  const name = words[1] ?? '';
  if (name === 'ServerHeartbeatFailed') {
    const fact = fill({ kind: name }, words.slice(0, 7), 2, [...BEAT, duration]);
    fact.error = error(words.slice(7).join(' '));
    return fact;
  }
  return Object.hasOwn(SDAM_EVENTS, name) ? fill({ kind: name }, words, 2, SDAM_EVENTS[name]) : unreadable('no event of the topology', words.join(' '));
}

const FACT_READERS = {
  Opened: (words) => fill({ kind: 'Opened' }, words, 1, [['pool', number32], ['address', address]]),
  Granted: (words) => Object.assign({ kind: 'Granted', party: number32(words[1] ?? '') }, place(words.length === 3 ? words[2] : '')),
  Ended: (words) => ({ kind: 'Ended', party: number32(words[1] ?? ''), end: end(words.slice(2).join(' ')) }),
  Raised: (words) => ({ kind: 'Raised', pool: number32(words[1] ?? ''), service: service(words[2] ?? ''), error: error(words.slice(3).join(' ')) }),
  CheckNow: (words) => fill({ kind: 'CheckNow' }, words, 1, [['address', address]]),
  Cancel: (words) => fill({ kind: 'Cancel' }, words, 1, [['address', address]]),
  Pool: poolEvent,
  Sdam: sdamEvent,
};

export function readFact(text) {
  const words = text.split(' ');
  return Object.hasOwn(FACT_READERS, words[0]) ? FACT_READERS[words[0]](words) : unreadable('no fact', text);
}
