// Things in words.
import { PLACES } from './things.js';
import { durationText } from './scale.js';

export const entryName = (entry) => 'entry ' + (entry + 1);

const DIGITS = /^\d+$/;

/** The moment that an entry's line tells, exact also above 2^53; of the opening that of the next entry. */
function momentOf(picture, entry) {
  const told = picture.log.line(entry).split(' ', 2)[1] ?? '';
  return DIGITS.test(told) ? BigInt(told) : BigInt(Math.round(picture.history.moments[entry]));
}

export const momentText = (picture, entry) => `${momentOf(picture, entry)} ms`;

export function thingName(thing) {
  if (thing.places !== undefined) return 'Connection ' + thing.name;
  if (thing.how !== undefined) return (thing.kind === 'request' ? 'Request of party ' : thing.kind === 'warm' ? 'Warm request ' : 'Take by party ') + thing.party;
  if (thing.sizes !== undefined) return 'Pool ' + thing.number;
  return 'Server ' + thing.address;
}

function connectionState(connection, entry) {
  if (connection.end >= 0 && entry >= connection.end) return 'closed: ' + connection.reason;
  const at = Math.max(0, connection.stretchAt(entry));
  if (connection.places.length === 0) return 'its place is not known';
  const party = connection.parties[at];
  return PLACES[connection.places[at]] + (party >= 0 ? ` ${party}` : '');
}

function requestState(request, entry) {
  if (request.end >= 0 && entry >= request.end) return request.how;
  if (request.granted < 0 || entry < request.granted) return 'waits';
  const name = request.connection.name;
  return request.ready >= 0 && entry >= request.ready ? 'has connection ' + name : `connection ${name} is being established`;
}

/** What is to be said of a thing at an entry. */
export function stateText(picture, thing, entry) {
  if (thing.places !== undefined) return connectionState(thing, entry);
  if (thing.how !== undefined) return requestState(thing, entry);
  if (thing.types !== undefined) {
    const type = thing.types.filter((it) => it.entry <= entry).pop();
    return type === undefined || type.type === '' ? 'gone' : type.type;
  }
  const state = thing.states.filter((it) => it.entry <= entry).pop();
  return state === undefined ? '' : state.state;
}

function took(picture, from, to) {
  return from < 0 || to < 0 ? '' : durationText(Number(momentOf(picture, to) - momentOf(picture, from)));
}

/** The life of a thing: each step of it with its entry. */
export function lifeOf(picture, thing) {
  if (thing.places !== undefined) {
    const ready = thing.entries.find((entry, at) => thing.places[at] !== 0) ?? -1;
    const life = [[thing.isCreated ? 'created' : 'first named', thing.start]];
    if (ready >= 0) life.push([`established after ${took(picture, thing.start, ready)}`, ready]);
    for (const error of thing.pool.errors) if (error.connection === thing) life.push([`${error.isLate ? 'late error' : 'error'} of party ${error.party}${error.isVoid ? ', without effect' : ''}`, error.entry]);
    if (thing.end >= 0) life.push([`closed: ${thing.reason}`, thing.end]);
    return life;
  }
  if (thing.how !== undefined) {
    const life = [[thing.kind === 'take' ? 'taken' : 'asked', thing.start]];
    if (thing.granted >= 0 && thing.kind !== 'take') life.push([`granted ${thing.connection.name} after ${took(picture, thing.start, thing.granted)}`, thing.granted]);
    if (thing.ready > thing.granted) life.push(['got it', thing.ready]);
    if (thing.end >= 0) life.push([thing.how, thing.end]);
    return life;
  }
  return [];
}
