// What each step and each fact does. The places of connections follow from the steps and facts that the auditor reads.
import { PENDING, AVAILABLE, HELD } from './things.js';

function ask(kind) {
  return (history, step, entry) => {
    const number = history.open.get(step.address);
    const pool = history.pool(number ?? -1, step.address, entry);
    history.ask(kind, step.party, pool, entry);
  };
}

function giveBack(history, step, entry) {
  history.giveBack(step.party, entry);
  if (step.kind === 'return') {
    const request = history.requests.get(step.party);
    if (request !== undefined) history.finish(request, entry, 'returned ' + step.use);
    history.tallies.returned += 1;
  }
}

/** It is its party's, unless that party's request ended; where nobody asked for it, it is available. */
function established(history, step, entry) {
  const connection = history.connection(history.pool(step.pool, undefined, entry), step.connection, entry);
  const request = connection.requester;
  connection.isTried = true;
  history.tallies.established += 1;
  if (request === null) history.move(connection, entry, AVAILABLE);
  else if (request.end < 0) {
    request.ready = entry;
    history.move(connection, entry, HELD, request.party);
  }
}

function take(history, step, entry) {
  const pool = history.pool(step.pool, undefined, entry);
  const connection = history.connection(pool, step.connection, entry);
  const request = history.ask('take', step.party, pool, entry);
  request.granted = entry;
  request.ready = entry;
  request.connection = connection;
  history.move(connection, entry, HELD, step.party);
}

function pin(change) {
  return (history, step, entry) => {
    const connection = step.kind === 'pin' ? history.held(step.party) : history.connection(history.pool(step.pool, undefined, entry), step.connection, entry);
    if (connection !== null) connection.pins = Math.max(0, connection.pins + change);
  };
}

/** An error without effect is late where its connection is older than a clear of its pool, or outlived the pool. */
function operationError(history, step, entry) {
  const isVoid = history.reply.value === 'false';
  const connection = history.held(step.party);
  const isLate = isVoid && connection !== null && (connection.pool.end >= 0 || (!history.options.lb && connection.pool.clears > connection.clears));
  const effect = isLate ? 'late, without effect: ' : isVoid ? 'without effect: ' : '';
  history.jump(entry, isVoid ? 'void error' : 'error', `${effect}${step.error.text}: party ${step.party}`);
  if (connection !== null) connection.pool.errors.push({ entry, connection, party: step.party, isVoid, isLate });
}

function trip(history, step, entry) {
  const isOpen = history.open.get(step.address) === step.pool;
  if (isOpen && (step.result ?? 'ok') === 'ok') history.server(step.address).trips.push({ entry, nanos: step.nanos ?? step.number });
  else if (isOpen) checkFailed(history, step, entry);
}

function checkFailed(history, step, entry) {
  const text = `${step.result === 'cancelled' ? 'cancelled, ' : ''}${step.error.text}: ${step.address}`;
  history.server(step.address).marks.push({ entry, kind: 'failed check', text });
  history.jump(entry, 'failed check', text);
}

export const ACTS = {
  open(history, step) {
    history.options = step.options;
  },
  request: ask('request'),
  warm: ask('warm'),
  giveup: giveBack,
  return: giveBack,
  established,
  failed(history, step, entry) {
    history.connection(history.pool(step.pool, undefined, entry), step.connection, entry).isTried = true;
  },
  take,
  pin: pin(1),
  replicate: pin(1),
  unpin: pin(-1),
  error: operationError,
  hello: trip,
  beaten: trip,
  rtt: trip,
};

const state = (name) => (history, fact, entry) => history.pool(fact.pool, fact.address, entry).states.push({ entry, state: name });

/** The opening of a pool; a part of a log may have named it before. */
function opened(history, fact, entry) {
  history.open.set(fact.address, fact.pool);
  const pool = history.pool(fact.pool, fact.address, entry);
  pool.states.push({ entry, state: history.options.lb ? 'Ready' : 'New' });
  history.touch(pool, entry);
}

/** A generation is raised. Where the pool was paused before there is no PoolCleared event, and so no clear for who listens. */
function raised(history, fact, entry) {
  const pool = history.pool(fact.pool, undefined, entry);
  const before = pool.states.length === 0 ? '' : pool.states[pool.states.length - 1].state;
  const isAgain = fact.service === null && (before === 'Paused' || before === 'New');
  const whose = fact.service === null ? '' : ` service ${fact.service}`;
  const kind = isAgain ? 'raise' : 'clear';
  pool.clears += 1;
  if (fact.service === null) pool.states.push({ entry, state: 'Paused' });
  history.server(pool.address).marks.push({ entry, kind, text: fact.error.text });
  history.jump(entry, kind, `${fact.error.text}: ${pool.address} pool ${fact.pool}${whose} ${isAgain ? 'raised again (already paused)' : 'cleared'}`);
}

function described(history, address, entry, type) {
  history.server(address).types.push({ entry, type });
}

const told = (kind) => (history, fact, entry) => history.server(fact.address).marks.push({ entry, kind, text: fact.address });

export const FACTS = {
  Opened: opened,
  PoolCreated(history, fact, entry) {
    const pool = history.pool(fact.pool, fact.address, entry);
    pool.max = fact.max ?? null;
    pool.min = fact.min ?? null;
  },
  PoolReady: state('Ready'),
  PoolClosed(history, fact, entry) {
    const pool = history.pool(fact.pool, fact.address, entry);
    pool.states.push({ entry, state: 'Closed' });
    pool.end = entry;
    if (history.open.get(pool.address) === fact.pool) history.open.delete(pool.address);
  },
  Raised: raised,
  ConnectionCreated(history, fact, entry) {
    const connection = history.connection(history.pool(fact.pool, fact.address, entry), fact.connection, entry);
    connection.isCreated = true;
    history.tallies.created += 1;
    history.move(connection, entry, PENDING);
  },
  ConnectionCheckedIn(history, fact, entry) {
    history.move(history.connection(history.pool(fact.pool, fact.address, entry), fact.connection, entry), entry, AVAILABLE);
  },
  ConnectionClosed(history, fact, entry) {
    history.close(history.connection(history.pool(fact.pool, fact.address, entry), fact.connection, entry), entry, fact.reason);
  },
  Granted(history, fact, entry) {
    const pool = history.pool(fact.pool, undefined, entry);
    const request = history.requests.get(fact.party) ?? history.ask('request', fact.party, pool, entry);
    history.grant(request, history.connection(pool, fact.connection, entry), entry);
  },
  Ended(history, fact, entry) {
    const how = fact.end.name;
    history.tallies.ended[how] = (history.tallies.ended[how] ?? 0) + 1;
    const request = history.requests.get(fact.party);
    if (request !== undefined) history.finish(request, entry, how);
  },
  CheckNow: told('check now'),
  Cancel: told('cancel'),
  ServerOpening: (history, fact, entry) => described(history, fact.address, entry, 'Unknown'),
  ServerClosed: (history, fact, entry) => described(history, fact.address, entry, ''),
  ServerDescriptionChanged: (history, fact, entry) => described(history, fact.address, entry, fact.after),
  TopologyDescriptionChanged: (history, fact, entry) => history.topology.push({ entry, type: fact.after.type, servers: fact.after.servers }),
};
