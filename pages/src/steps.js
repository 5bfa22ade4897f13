// The step of an entry: the line of a script that it answers.
import { unreadable, number31, number32, number63, number64, oneOf, flag, word, id, address, addressList, version, tags, error } from './words.js';

/** What each word of a step is, behind the moment. The names say how it is read and what it names. */
export const STEP_WORDS = {
  request: ['party', 'address'], warm: ['party', 'address'], collect: ['party'], claim: [], giveup: ['party'],
  return: ['party', 'use'], pin: ['party'], replicate: ['pool', 'connection'], take: ['party', 'pool', 'connection'],
  unpin: ['pool', 'connection'], beat: ['address', 'pool'], rtt: ['address', 'pool', 'number'], hosts: ['addresses'],
  ctime: ['number'], maintain: ['address'], expire: ['address'], want: ['watcher'], unwant: ['watcher'], stop: [],
  established: ['pool', 'connection'], failed: ['pool', 'connection'], error: ['party'], hello: ['address', 'pool'],
  beaten: ['address', 'pool', 'number'],
};

const READERS = {
  party: number32, address, pool: number32, connection: number32, watcher: number32, number: number64, addresses: addressList,
  use: oneOf('ok', 'errored', 'dropped', 'streaming'),
};

const FIELDS = [
  ['isWritablePrimary', flag], ['ismaster', flag], ['helloOk', flag], ['hosts', addressList], ['passives', addressList],
  ['arbiters', addressList], ['msg', word], ['me', address], ['setVersion', number31], ['setName', word], ['hidden', flag],
  ['secondary', flag], ['arbiterOnly', flag], ['isreplicaset', flag], ['logicalSessionTimeoutMinutes', number64],
  ['minWireVersion', number31], ['maxWireVersion', number31], ['tags', tags], ['electionId', id], ['primary', address],
  ['topologyVersion', version], ['connectionId', number63],
];

const OPTIONS = [
  ['set', word], ['direct', null], ['lb', null], ['max', number32], ['min', number32], ['connecting', number32], ['idle', number64],
  ['wait', number64], ['heartbeat', number64], ['connect', number64], ['mode', oneOf('stream', 'poll')], ['limit_id', number32],
  ['limit_generation', number64], ['limit_pool', number32], ['limit_monitor', number32],
];

export const FIELD_NAMES = FIELDS.map(([name]) => name);
export const OPTION_NAMES = OPTIONS.map(([name, reader]) => (reader === null ? name : name + '='));

const ESTABLISHED = [['wire', number31], ['sid', id], ['server', number63]];

/** Words NAME=VALUE in the order of the table, each at most once; a name without a reader stands alone. */
function named(words, table) {
  const found = {};
  let at = 0;
  for (const [name, reader] of table) {
    if (at === words.length) break;
    if (reader === null && words[at] === name) {
      found[name] = true;
      at += 1;
    } else if (reader !== null && words[at].startsWith(name + '=')) {
      found[name] = reader(words[at].slice(name.length + 1));
      at += 1;
    }
  }
  return at === words.length ? found : unreadable('unknown, or out of order', words[at]);
}

function errorFrom(words, at) {
  return words.length > at ? error(words.slice(at).join(' ')) : unreadable('an error is missing', words.join(' '));
}

const TAILS = {
  established(step, words) {
    Object.assign(step, named(words.slice(4), ESTABLISHED));
    if (step.wire === undefined) unreadable('no wire version', words.join(' '));
  },
  failed(step, words) {
    const service = words[4] === 'post' && words[5] !== undefined && words[5].startsWith('sid=');
    if (words[4] !== 'pre' && words[4] !== 'post') unreadable('neither pre nor post', words.slice(4).join(' '));
    if (service) step.sid = id(words[5].slice(4));
    step.error = errorFrom(words, service ? 6 : 5);
  },
  error(step, words) {
    step.error = errorFrom(words, 3);
  },
  hello(step, words) {
    step.result = words[4];
    if (words[4] === 'err') step.error = errorFrom(words, 5);
    else if (words[4] !== 'ok' || words[5] === undefined || !words[5].startsWith('rtt=')) unreadable('neither ok rtt= nor err', words.slice(4).join(' '));
    else {
      step.nanos = number64(words[5].slice(4));
      named(words.slice(6), FIELDS);
    }
  },
  beaten(step, words) {
    step.result = words[5];
    if (words[5] === 'err' || words[5] === 'cancelled') step.error = errorFrom(words, 6);
    else if (words[5] !== 'ok') unreadable('none of ok, err, cancelled', words.slice(5).join(' '));
    else named(words.slice(6, words[words.length - 1] === 'more' ? -1 : undefined), FIELDS);
    step.nanos = step.number;
  },
};

const MOST_SIZE = 65535;

/** The first rule that options break, or nothing. */
function brokenRule(seeds, o) {
  const isSize = (size, least) => size === undefined || (size >= least && size <= MOST_SIZE);
  if ((o.direct || o.lb) && seeds.length !== 1) return 'more than one seed with direct or lb';
  if (o.direct && o.lb) return 'both direct and lb';
  if (o.lb && o.set !== undefined) return 'a set behind a load balancer';
  if (!isSize(o.max, 1) || !isSize(o.connecting, 1) || !isSize(o.min, 0)) return 'a size out of its bounds';
  return o.limit_pool !== undefined && seeds.length - 1 > o.limit_pool ? 'more seeds than pools' : null;
}

function readOpen(words) {
  if (words[1] === undefined || !words[1].startsWith('seeds=')) unreadable('no seeds', words.join(' '));
  const seeds = addressList(words[1].slice(6));
  const options = named(words.slice(2), OPTIONS);
  const rule = brokenRule(seeds, options);
  if (rule !== null) unreadable(rule, words.join(' '));
  return { kind: 'open', moment: 0, momentText: '', seeds, options };
}

/** The step that a line spells. `open` is the first of a log, and no other is. */
export function readStep(text) {
  const words = text.split(' ');
  const kind = words[0];
  if (kind === 'open') return readOpen(words);
  const names = Object.hasOwn(STEP_WORDS, kind) ? STEP_WORDS[kind] : unreadable('no step', text);
  const tail = TAILS[kind];
  const least = 2 + names.length;
  if (words.length < least || (tail === undefined && words.length > least)) unreadable('too few or too many words', text);
  const step = { kind, moment: number64(words[1]), momentText: words[1] };
  for (let at = 0; at < names.length; at += 1) step[names[at]] = READERS[names[at]](words[at + 2]);
  if (tail !== undefined) tail(step, words);
  return step;
}
