// The simulation of examples/storm as a module of WebAssembly: settings in words, then samples and sums. Pointers and lengths are BigInts.

const MORE = 0;
const ENDED = 1;
const WIDTH = 4; // bytes of a setting, and of a member of a sample
const MOST_TEXT = 65536;
const FAULTS = { 2: 'there is no memory left', 3: 'the library refused a step' };

/** A run that goes on in portions. */
class Run {
  constructor(calls, words) {
    this.calls = calls;
    this.open(words);
  }

  bytes(at, length) {
    return new Uint8Array(this.calls.memory.buffer, Number(at), length);
  }

  text(at) {
    const all = this.bytes(at, 64);
    return new TextDecoder().decode(all.subarray(0, all.indexOf(0)));
  }

  /** The names of settings, samples or sums: by place, until there is none. */
  names(nameOf) {
    const found = [];
    for (let at = nameOf(0n); at !== 0n; at = nameOf(BigInt(found.length))) found.push(this.text(at));
    return found;
  }

  open(words) {
    const { calls } = this;
    const written = new TextEncoder().encode(words).subarray(0, MOST_TEXT);
    const settings = calls.mdb_room(BigInt(WIDTH * this.names(calls.settings_name).length));
    const text = calls.mdb_room(BigInt(written.length + 1));
    this.bytes(text, written.length).set(written);
    calls.settings_default(settings);
    const read = Number(calls.settings_read(settings, text, BigInt(written.length)));
    if (read < written.length) throw new Error('no setting, or out of its bounds: ' + words.slice(read).split(/\s/)[0]);
    this.storm = calls.storm_open(settings);
    if (this.storm === 0n) throw new Error(FAULTS[2]);
    this.count = calls.mdb_room(8n);
  }

  /** Goes on for so many events, and answers whether there are more. */
  go(events) {
    const status = this.calls.storm_go(this.storm, BigInt(events));
    if (status !== MORE && status !== ENDED) throw new Error(FAULTS[status]);
    return status === MORE;
  }

  /** Where the samples so far stand, and how many there are. */
  table() {
    const at = this.calls.storm_samples(this.storm, this.count);
    return { at: Number(at), many: Number(new DataView(this.calls.memory.buffer).getBigUint64(Number(this.count), true)) };
  }

  /** The samples so far, each a list of numbers in the order of their names. */
  samples() {
    const names = this.names(this.calls.storm_sample_name);
    const { at, many } = this.table();
    const all = Uint32Array.from(new Uint32Array(this.calls.memory.buffer, at, many * names.length));
    return { names, rows: Array.from({ length: many }, (_, row) => all.subarray(row * names.length, (row + 1) * names.length)) };
  }

  /** The sums of a run that ended, by their names. */
  sums() {
    const names = this.names(this.calls.storm_sum_name);
    const at = this.calls.storm_sums(this.storm);
    if (at === 0n) throw new Error(FAULTS[2]);
    const all = new BigUint64Array(this.calls.memory.buffer, Number(at), names.length);
    return Object.fromEntries(names.map((name, place) => [name, Number(all[place])]));
  }
}

export class Simulation {
  constructor(module) {
    this.module = module;
  }

  static async of(bytes) {
    return new Simulation(await WebAssembly.compile(bytes));
  }

  /** Each run has an instance of its own, whose memory goes with it. */
  begin(words) {
    return new Run(new WebAssembly.Instance(this.module, {}).exports, words);
  }
}
