// A driver of libmdb for Node: steps as lines in, replies and facts out, by the numbers of mdb.h with names for them.
//
//     const driver = new Driver('open seeds=a:27017 max=10');
//     driver.step('hello 1 a:27017 0 ok rtt=5 maxWireVersion=21');
//     driver.step('request 2 1 a:27017').kind === Kind.ESTABLISHING
//
// `step` does a line of the grammar of scripts and answers {kind, pool, id, why, number, facts}; each fact is {kind, event, pool, id, party, why, number}.
// `entry` is the text of the last step as a log has it. Errors have a `code`: EINVAL (malformed), ECLOSED, ENOMEM. Numbers above 2^53 are rounded.
'use strict';

const { Driver } = require('./out/driver.node');

const numbered = (...names) => Object.freeze(Object.fromEntries(names.map((name, at) => [name, at + 1])));
const Kind = numbered('POOLED', 'ESTABLISHING', 'WAITING', 'ENDED', 'JOB', 'NO_JOB', 'CHANGED', 'COUNT', 'DONE', 'REFUSED');
const Fact = numbered('OPENED', 'POOL', 'GRANTED', 'ENDED', 'RAISED', 'SDAM', 'CHECK_NOW', 'CANCEL');

module.exports = { Driver, Kind, Fact };
