// A load by node-mongodb: chains of inserts, each document with its own text, for some seconds.
// On a busy machine it goes on until each has 25 done, but for no longer than six times as long.
//
// usage: node load.js SECONDS CHAINS      MDB_URI says where; Debian's modules are found by NODE_PATH=/usr/share/nodejs
'use strict';
const { MongoClient } = require('mongodb');

const pause = (milliseconds) => new Promise((resolve) => setTimeout(resolve, milliseconds));
const LEAST = 25;
const counts = { done: 0, failed: 0 };

async function work(items, chain, milliseconds) {
  const begin = Date.now();
  let mine = 0;
  for (let number = 1; Date.now() - begin < (mine >= LEAST ? 1 : 6) * milliseconds; number++) {
    try {
      await items.insertOne({ text: `${chain} ${number}` });
      counts.done++;
      mine++;
    } catch (_why) {
      counts.failed++;
      await pause(10);
    }
    await pause(10);
  }
}

async function main() {
  const [seconds, chains] = process.argv.slice(2).map(Number);
  const client = new MongoClient(process.env.MDB_URI, { useUnifiedTopology: true });
  try {
    await client.connect();
  } catch (_why) {
    console.error('node-mongodb: no server is there');
    await client.close();
    return;
  }
  const items = client.db('test').collection('items');
  await Promise.all(Array.from({ length: chains }, (_, chain) => work(items, chain, seconds * 1000)));
  await client.close();
  console.error('node-mongodb', counts);
}

main().catch((why) => {
  console.error(String(why));
  process.exit(1);
});
