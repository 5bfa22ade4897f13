// A program as a module of WebAssembly: its own main runs over a text. Pointers and lengths are BigInts.

const OUTPUT = 1;
const ERRORS = 2;

export class Program {
  constructor(name, module) {
    this.name = name;
    this.module = module;
  }

  static async of(name, bytes) {
    return new Program(name, await WebAssembly.compile(bytes));
  }

  /** Runs it over a text, and answers its status with what it wrote: { status, output, errors }. Each run has an instance of its own. */
  run(text, words = []) {
    const calls = new WebAssembly.Instance(this.module, {}).exports;
    const put = (bytes) => {
      const at = calls.mdb_room(BigInt(bytes.length + 1));
      if (at === 0n) throw new Error('the module has no memory left');
      new Uint8Array(calls.memory.buffer, Number(at), bytes.length).set(bytes);
      return [at, BigInt(bytes.length)];
    };
    const written = (file) => new TextDecoder().decode(new Uint8Array(calls.memory.buffer, Number(calls.mdb_written(file)), Number(calls.mdb_written_length(file))));
    const writer = new TextEncoder();
    const status = calls.mdb_run(...put(writer.encode(text)), ...put(writer.encode([this.name, ...words].map((it) => it + '\0').join(''))));
    return { status, output: written(OUTPUT), errors: written(ERRORS) };
  }
}
