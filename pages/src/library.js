// The library for C as a module of WebAssembly: a driver by lines. Statuses and layouts are those of include/mdb.h; pointers and lengths are BigInts.

export const STATUS = { ok: 0, memory: 1, malformed: 2, room: 3, closed: 4, opened: 5 };

const [SLOT, REPLY, NEEDED] = [16, 24, 8]; // bytes of a slot, a reply and a length
const writer = new TextEncoder();
const reader = new TextDecoder();

/** Bytes of the module that grow with what is asked of them. */
class Buffer {
  constructor(calls, length) {
    this.calls = calls;
    this.take(length);
  }

  take(length) {
    this.length = length;
    this.at = this.calls.mdb_room(BigInt(length));
    if (this.at === 0n) throw new Error('the module has no memory left');
  }

  ensure(length) {
    if (length <= this.length) return;
    this.free();
    this.take(2 * length);
  }

  free() {
    this.calls.mdb_room_back(this.at);
  }
}

/** One driver. It is closed by its user, or it keeps its memory. */
class Driver {
  constructor(calls) {
    this.calls = calls;
    this.words = new Buffer(calls, SLOT + REPLY + NEEDED);
    this.line = new Buffer(calls, 512);
    this.text = new Buffer(calls, 4096);
    this.slot = this.words.at;
    this.reply = this.slot + BigInt(SLOT);
    this.needed = this.reply + BigInt(REPLY);
    this.bytes(this.slot, SLOT + REPLY + NEEDED).fill(0);
  }

  /** A view of the memory; one that was taken before the memory grew is of no use any more. */
  bytes(at, length) {
    return new Uint8Array(this.calls.memory.buffer, Number(at), length);
  }

  /** Does the step that a line spells, `open` the first of them, and answers a status. */
  step(line) {
    this.line.ensure(3 * line.length);
    const { written } = writer.encodeInto(line, this.bytes(this.line.at, this.line.length));
    const isOpen = line === 'open' || line.startsWith('open ');
    if (isOpen) return this.calls.mdb_open_line(this.slot, 0, this.line.at, BigInt(written));
    return this.calls.mdb_line(this.slot, 0, this.line.at, BigInt(written), this.reply);
  }

  length() {
    return Number(new DataView(this.calls.memory.buffer).getBigUint64(Number(this.needed), true));
  }

  /** The text of the last entry, with its newline. */
  entry() {
    const ask = () => this.calls.mdb_entry_text(this.slot, this.text.at, BigInt(this.text.length), this.needed);
    let status = ask();
    if (status === STATUS.room) {
      this.text.ensure(this.length());
      status = ask();
    }
    if (status !== STATUS.ok) throw new Error('the last entry cannot be told: status ' + status);
    return reader.decode(this.bytes(this.text.at, this.length()));
  }

  close() {
    this.calls.mdb_close(this.slot);
    for (const buffer of [this.words, this.line, this.text]) buffer.free();
  }
}

export class Library {
  constructor(module) {
    this.module = module;
    this.start();
  }

  static async of(bytes) {
    return new Library(await WebAssembly.compile(bytes));
  }

  /** An instance anew: one that stopped in the middle of a call is not called again. */
  start() {
    this.calls = new WebAssembly.Instance(this.module, {}).exports;
  }

  driver() {
    return new Driver(this.calls);
  }
}
