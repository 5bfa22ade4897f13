#!/usr/bin/env node
// Records what the Node driver tells of its pools, servers and topology, as JSON lines that mdb_recorded reads.
//
// usage: NODE_PATH=/usr/share/nodejs record_node.js URI SECONDS WORKERS > recording.jsonl      needs node-mongodb
//
// `listen` is all that your own program needs: call it before the client connects. The rest is a load: so many asynchronous workers
// that insert for so long, whatever fails.
'use strict';

const fs = require('fs');
const { MongoClient } = require('mongodb');

const POOLS = [
  'connectionPoolCreated', 'connectionPoolReady', 'connectionPoolCleared', 'connectionPoolClosed',
  'connectionCreated', 'connectionReady', 'connectionClosed',
  'connectionCheckOutStarted', 'connectionCheckOutFailed', 'connectionCheckedOut', 'connectionCheckedIn',
];
const TOPOLOGIES = [
  'topologyOpening', 'topologyDescriptionChanged', 'topologyClosed', 'serverOpening', 'serverDescriptionChanged', 'serverClosed',
];
const BEATS = ['serverHeartbeatStarted', 'serverHeartbeatSucceeded', 'serverHeartbeatFailed'];
const OPTIONS = ['maxPoolSize', 'minPoolSize', 'maxConnecting', 'maxIdleTimeMS'];

// The name of an event in CMAP and in SDAM monitoring.
const standard = (name) => name[0].toUpperCase() + name.slice(1);

// What of an event a line has. A member that is undefined is left out.
function members(event) {
  const told = { address: event.address || event.connectionId };
  if (event.address && event.connectionId !== undefined) told.connectionId = event.connectionId;
  if (event.previousDescription && event.address) {
    told.from = event.previousDescription.type;
    told.to = event.newDescription.type;
  }
  if (event.serviceId) told.serviceId = String(event.serviceId);
  // a check-out whose connection could not be established fails with the error itself
  if (event.reason) told.reason = typeof event.reason === 'string' ? event.reason : 'connectionError';
  for (const option of OPTIONS) told[option] = event.options && event.options[option];
  return told;
}

// Tells `write` a line for each event of a client. Listeners are called one after another, so that lines have the order of events.
function listen(client, write) {
  const tell = (kind, names) => names.forEach((name) => client.on(name, (event) => {
    const seconds = Number(process.hrtime.bigint() / 1000n) / 1e6;
    write(JSON.stringify({ t: seconds, kind, event: standard(name), ...members(event) }) + '\n');
  }));
  tell('pool', POOLS);
  tell('sdam', TOPOLOGIES);
  tell('beat', BEATS);
}

async function work(items, until, counts) {
  while (Date.now() < until) {
    try {
      await items.insertOne({ n: 1 });
      counts.done += 1;
    } catch (error) {
      counts.failed += 1;
      await new Promise((resolve) => setTimeout(resolve, 10));
    }
  }
}

async function main() {
  const [uri, seconds, workers] = process.argv.slice(2);
  const client = new MongoClient(uri, { useUnifiedTopology: true });
  listen(client, (line) => fs.writeSync(1, line));
  await client.connect();
  const counts = { done: 0, failed: 0 };
  const until = Date.now() + 1000 * Number(seconds);
  const items = client.db('test').collection('items');
  await Promise.all(Array.from({ length: Number(workers) }, () => work(items, until, counts)));
  await client.close();
  console.error(`node ${require('mongodb/package.json').version}: ${counts.done} done, ${counts.failed} failed`);
}

module.exports = { listen };
if (require.main === module) main();
