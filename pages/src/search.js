// Search for a connection, a party, an address or an entry.
const MOST = 200;

const asConnection = (connection) => ({ entry: connection.start, thing: connection, label: connection.name, text: `connection at ${connection.pool.address}` });
const asRequest = (request) => ({ entry: request.start, thing: request, label: String(request.party), text: `${request.kind} at ${request.pool.address}` });
const asServer = (server) => ({ entry: server.types[0]?.entry ?? server.pools[0]?.start ?? 0, thing: server, label: server.address, text: 'server' });
const asPool = (pool) => ({ entry: pool.start, thing: pool, label: 'pool ' + pool.number, text: 'at ' + pool.address });

function connections(history, text) {
  const dot = text.indexOf('.');
  const pool = history.pools.get(Number(text.slice(0, dot)));
  if (pool === undefined) return [];
  const rest = text.slice(dot + 1);
  const exact = pool.connections.get(Number(rest));
  const found = exact !== undefined && rest !== '' ? [exact] : [];
  for (const connection of pool.connections.values()) {
    if (found.length >= MOST) break;
    if (connection !== exact && String(connection.number).startsWith(rest)) found.push(connection);
  }
  return found.map(asConnection);
}

function parties(history, text) {
  const exact = history.requests.get(Number(text));
  const found = exact === undefined ? [] : [exact];
  for (const request of history.requests.values()) {
    if (found.length >= MOST) break;
    if (request !== exact && String(request.party).startsWith(text)) found.push(request);
  }
  return found.map(asRequest);
}

const pools = (history, number) => (history.pools.has(number) ? [asPool(history.pools.get(number))] : []);

/** What a text may stand for, the exact ones first. */
export function search(picture, words) {
  const text = words.trim().toLowerCase();
  const { history, log } = picture;
  if (text === '') return [];
  const entry = /^(?:#|entry )(\d+)$/.exec(text);
  if (entry !== null) {
    const at = Number(entry[1]) - 1;
    return at >= 0 && at < log.count ? [{ entry: at, thing: null, label: '#' + (at + 1), text: log.line(at).slice(0, 80) }] : [];
  }
  const pool = /^pool (\d+)$/.exec(text);
  if (pool !== null) return pools(history, Number(pool[1]));
  const party = /^(?:party )?(\d+)$/.exec(text);
  if (party !== null) return parties(history, party[1]);
  if (/^(?:connection )?\d+\.\d*$/.test(text)) return connections(history, text.replace('connection ', ''));
  return [...history.servers.values()].filter((it) => it.address.includes(text)).slice(0, MOST).map(asServer);
}
