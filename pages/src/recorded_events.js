// What each event of a recording does: a pool's number is its place among those that were created, a party's that of its check-out.
import { PENDING, AVAILABLE, HELD } from './things.js';

const UNTOLD_MOST = 100;
const REASONS = { idle: 'Idle', stale: 'Stale', error: 'Error', connectionError: 'Error', poolClosed: 'PoolClosed' };
const ENDS = { timeout: 'TimedOut', connectionError: 'Failed', poolClosed: 'Closed' };
const TYPES_BY_KIND = {
  RSPrimary: 'RsPrimary', RSSecondary: 'RsSecondary', RSArbiter: 'RsArbiter', RSOther: 'RsOther', RSGhost: 'RsGhost', Mongos: 'Mongos', Standalone: 'Standalone', LoadBalancer: 'LoadBalancer',
};

/** The pool that is open at the address; one whose creation the recording lacks is made. */
function poolAt(history, address, entry) {
  return history.pool(history.open.get(address) ?? history.pools.size, address, entry);
}

function connectionOf(history, event, entry) {
  return history.connection(poolAt(history, event.address, entry), event.connectionId, entry);
}

/** The check-out that waits: of this caller, or where none is told the one that began first. */
function waiting(history, pool, caller) {
  const isMeant = (it) => it.pool === pool && (caller === undefined || it.caller === caller);
  for (const request of history.started) if (isMeant(request)) return request;
  return null;
}

function poolCreated(history, event, entry) {
  const pool = history.pool(history.pools.size, event.address, entry);
  history.open.set(event.address, pool.number);
  pool.max = event.maxPoolSize ?? UNTOLD_MOST;
  pool.min = event.minPoolSize ?? null;
  pool.states.push({ entry, state: 'New' });
  history.touch(pool, entry);
  return { pool: pool.number };
}

const poolState = (state) => (history, event, entry) => {
  const pool = poolAt(history, event.address, entry);
  pool.states.push({ entry, state });
  return { pool: pool.number };
};

function poolClosed(history, event, entry) {
  const told = poolState('Closed')(history, event, entry);
  history.pools.get(told.pool).end = entry;
  history.open.delete(event.address);
  return told;
}

function poolCleared(history, event, entry) {
  const pool = poolAt(history, event.address, entry);
  const whose = event.serviceId === undefined ? '' : ` service ${event.serviceId}`;
  pool.clears += 1;
  if (event.serviceId === undefined) pool.states.push({ entry, state: 'Paused' });
  history.server(pool.address).marks.push({ entry, kind: 'clear', text: 'cleared' });
  history.jump(entry, 'clear', `${pool.address} pool ${pool.number}${whose} cleared`);
  return { pool: pool.number };
}

/** A connection is made, for a caller where one is told. */
function created(history, event, entry) {
  const connection = connectionOf(history, event, entry);
  connection.isCreated = true;
  history.tallies.created += 1;
  history.move(connection, entry, PENDING);
  const request = event.caller === undefined ? null : waiting(history, connection.pool, event.caller);
  if (request !== null) history.grant(request, connection, entry);
  return { pool: connection.pool.number, party: request?.party };
}

function ready(history, event, entry) {
  const connection = connectionOf(history, event, entry);
  connection.isTried = true;
  history.tallies.established += 1;
  if (connection.place === PENDING && connection.requester === null) history.move(connection, entry, AVAILABLE);
  return { pool: connection.pool.number };
}

function started(history, event, entry) {
  const pool = poolAt(history, event.address, entry);
  const request = history.ask('request', history.requests.size + 1, pool, entry);
  request.caller = event.caller;
  history.started.add(request);
  return { pool: pool.number, party: request.party };
}

function checkedOut(history, event, entry) {
  const connection = connectionOf(history, event, entry);
  const request = waiting(history, connection.pool, event.caller);
  connection.isTried = true;
  if (request === null) history.move(connection, entry, HELD);
  else if (request.connection === connection) {
    request.ready = entry;
    history.move(connection, entry, HELD, request.party);
  } else history.grant(request, connection, entry);
  history.started.delete(request);
  return { pool: connection.pool.number, party: request?.party };
}

function checkOutFailed(history, event, entry) {
  const pool = poolAt(history, event.address, entry);
  const request = waiting(history, pool, event.caller);
  const how = ENDS[event.reason] ?? 'Failed';
  history.tallies.ended[how] = (history.tallies.ended[how] ?? 0) + 1;
  if (request !== null) {
    history.started.delete(request);
    history.finish(request, entry, how);
  }
  return { pool: pool.number, party: request?.party };
}

/** The party of a connection has it no longer. */
function released(history, connection, entry, how) {
  const request = history.requests.get(connection.party) ?? null;
  if (request === null || request.ready < 0) return undefined;
  history.tallies.returned += 1;
  history.finish(request, entry, how);
  return request.party;
}

function checkedIn(history, event, entry) {
  const connection = connectionOf(history, event, entry);
  const party = released(history, connection, entry, 'returned ok');
  history.move(connection, entry, AVAILABLE);
  return { pool: connection.pool.number, party };
}

function closed(history, event, entry) {
  const connection = connectionOf(history, event, entry);
  const reason = REASONS[event.reason] ?? String(event.reason);
  const party = connection.place === HELD ? released(history, connection, entry, 'returned errored') : undefined;
  if (reason === 'Error') {
    connection.pool.errors.push({ entry, connection, party: party ?? -1, isVoid: false, isLate: false });
    history.jump(entry, 'error', `connection ${connection.name} closed for an error: ${connection.pool.address}`);
  }
  history.close(connection, entry, reason);
  return { pool: connection.pool.number, party };
}

/** The type of the topology, by its servers' kinds: no event of a recording tells it. */
function topologyByTypes(types) {
  if (types.includes('RsPrimary')) return 'ReplicaSetWithPrimary';
  if (types.some((it) => it.startsWith('Rs'))) return 'ReplicaSetNoPrimary';
  return { Mongos: 'Sharded', Standalone: 'Single', LoadBalancer: 'LoadBalanced' }[types.find((it) => it !== 'Unknown')] ?? null;
}

function nowTyped(history, address, entry, type) {
  const { topology } = history;
  history.server(address).types.push({ entry, type });
  const types = [...history.servers.values()].map((it) => it.types[it.types.length - 1]?.type ?? '').filter((it) => it !== '');
  const last = topology[topology.length - 1];
  const isSet = last !== undefined && last.type.startsWith('ReplicaSet');
  const now = topologyByTypes(types) ?? (isSet ? 'ReplicaSetNoPrimary' : 'Unknown');
  if (last?.type !== now || last.servers !== types.length) topology.push({ entry, type: now, servers: types.length });
}

function beaten(history, event, entry) {
  const server = history.server(event.address);
  server.trips.push({ entry, nanos: Math.round((history.moments[entry] - (server.begun ?? history.moments[entry])) * 1e6) });
}

function beatFailed(history, event, entry) {
  history.server(event.address).marks.push({ entry, kind: 'failed check', text: 'failed check' });
  history.jump(entry, 'failed check', `failed check: ${event.address}`);
}

const event = (does, ...needs) => ({ does, needs });
const ofPool = (does) => event(does, 'address');
const ofConnection = (does) => event(does, 'address', 'connectionId');

export const EVENTS = {
  pool: {
    ConnectionPoolCreated: ofPool(poolCreated), ConnectionPoolReady: ofPool(poolState('Ready')), ConnectionPoolCleared: ofPool(poolCleared), ConnectionPoolClosed: ofPool(poolClosed),
    ConnectionCreated: ofConnection(created), ConnectionReady: ofConnection(ready), ConnectionClosed: ofConnection(closed),
    ConnectionCheckOutStarted: ofPool(started), ConnectionCheckOutFailed: ofPool(checkOutFailed), ConnectionCheckedOut: ofConnection(checkedOut), ConnectionCheckedIn: ofConnection(checkedIn),
  },
  sdam: {
    ServerOpening: ofPool((history, it, entry) => nowTyped(history, it.address, entry, 'Unknown')),
    ServerDescriptionChanged: ofPool((history, it, entry) => nowTyped(history, it.address, entry, TYPES_BY_KIND[it.to] ?? 'Unknown')),
    ServerClosed: ofPool((history, it, entry) => nowTyped(history, it.address, entry, '')),
  },
  beat: {
    ServerHeartbeatStarted: ofPool((history, it, entry) => {
      history.server(it.address).begun = history.moments[entry];
    }),
    ServerHeartbeatSucceeded: ofPool(beaten), ServerHeartbeatFailed: ofPool(beatFailed),
  },
};
