// A recording of another driver: what its listeners were told, one JSON object a line. It is drawn from the same history as a printed log.
import { Log } from './reader.js';
import { Unreadable, unreadable } from './words.js';
import { EVENTS } from './recorded_events.js';

/** Whether a text is a recording, by its first line. */
export const isRecording = (text) => text.trimStart().startsWith('{');

function eventOf(line) {
  let event = null;
  try {
    event = JSON.parse(line);
  } catch {
    unreadable('no JSON', line);
  }
  if (event === null || typeof event !== 'object' || typeof event.kind !== 'string') unreadable('no JSON object with a kind', line);
  return event;
}

export class RecordingLog extends Log {
  constructor(name, text) {
    super(name, text);
    this.told = new Map(); // of an entry, the pool and the party that its event is about
    this.since = null; // seconds of the first event
  }

  /** The members of an event as the words of an entry. */
  parts(at) {
    if (!this.told.has(at)) return super.parts(at);
    const { pool, party } = this.told.get(at);
    const names = { address: (value) => ({ kind: 'address', key: value }), connectionId: (value) => (pool === undefined ? null : { kind: 'connection', key: `${pool}.${value}` }) };
    const tokens = Object.entries(JSON.parse(this.line(at))).map(([key, value]) => ({ text: key + '=' + (typeof value === 'string' ? value : JSON.stringify(value)), names: names[key]?.(value) ?? null }));
    if (party !== undefined) tokens.push({ text: 'check-out ' + party, names: { kind: 'party', key: party } });
    return [{ role: 'step', tokens }];
  }

  /** Milliseconds since the first event; where the line tells no time, those of the line before. */
  moment(event, before) {
    if (typeof event.t !== 'number') return before;
    this.since ??= event.t;
    return (event.t - this.since) * 1000;
  }
}

/** Reads the lines from one to another into a history, and notes what cannot be read. */
export function readRecorded(log, history, from, to) {
  for (let at = from; at < to; at += 1) {
    const line = log.line(at);
    if (line.trim() === '') continue;
    try {
      const event = eventOf(line);
      const act = EVENTS[event.kind]?.[event.event];
      const isComplete = act === undefined || act.needs.every((it) => event[it] !== undefined);
      if (!isComplete) unreadable(`${event.event} lacks ${act.needs.join(' or ')}`, line);
      history.tell(at, log.moment(event, at > 0 ? history.moments[at - 1] : 0), () => log.told.set(at, act?.does(history, event, at) ?? {}));
    } catch (fault) {
      if (!(fault instanceof Unreadable)) throw fault;
      log.unread.push({ line: at, why: fault.why, isDrawn: false });
    }
  }
}
