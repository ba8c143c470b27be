// The module and its calls: texts in, texts out. A worker of the page has it, and tests.
class Engine {
  constructor(module) {
    this.exports = new WebAssembly.Instance(module, {}).exports;
    this.room = 1n << 20n;
  }

  // Takes room for so many bytes; an error where memory is refused.
  take(length) {
    const at = BigInt.asUintN(64, this.exports.mcs_take(length || 1n));
    if (at === 0n) throw new Error('memory is refused');
    return at;
  }

  // Calls an export with a text, and returns its status, its text, and the line that is refused.
  call(name, text, states) {
    const given = new TextEncoder().encode(text);
    const length = BigInt(given.length);
    const at = this.take(length);
    try {
      new Uint8Array(this.exports.memory.buffer, Number(at), given.length).set(given);
      return this.told(name, states === undefined ? [at, length] : [at, length, BigInt(states)]);
    } finally {
      this.exports.mcs_give_back(at);
    }
  }

  // Calls an export once more where the first buffer was too small.
  told(name, words) {
    for (;;) {
      const room = this.room;
      const out = this.take(room), end = this.take(24n);
      try {
        const status = this.exports[name](...words, out, room, end) >>> 0;
        if (status === 6) return { status, text: '', line: 0, fault: 0 };
        const { buffer } = this.exports.memory;
        const view = new DataView(buffer, Number(end), 24);
        const [length, line, fault] = [0, 8, 16].map(at => view.getBigUint64(at, true));
        if (length <= room) {
          const text = new TextDecoder().decode(new Uint8Array(buffer, Number(out), Number(length)));
          return { status, text, line: Number(line), fault: Number(fault) };
        }
        this.room = length + (length >> 2n);
      } finally {
        this.exports.mcs_give_back(out);
        this.exports.mcs_give_back(end);
      }
    }
  }
}
