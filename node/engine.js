// The proved module, called as a page calls it. Each request is answered as if it were the first: the module keeps
// nothing of the one before.

// How a request ends: as the programs do, or because the reply is longer than its room.
const ENDED = 0, SPENT = 3, LIMIT = 4, NO_MEMORY = 5, NOT_READ = 6, NOT_WRITTEN = 7, NOT_UNDERSTOOD = 8;
const TOO_LONG = 9;
// The most memory that the module takes, and the most bytes that a tape may have.
const MEMORY = 2 ** 29, TAPE_LIMIT = 33554432;
// The room that is tried first for a reply, and how many times as much comes next.
const FIRST_ROOM = 2 ** 20, MORE_ROOM = 4;

// The module has no more memory.
class Refused extends Error {}

class Engine {
  // The module's bytes, packed as the page packs them.
  constructor(packed) {
    this.packed = packed;
    this.instance = null;
  }

  // What the module has. It is unpacked and compiled when it is first asked for.
  get exports() {
    if (!this.instance) {
      this.module ??= new WebAssembly.Module(zlib.inflateSync(Buffer.from(this.packed, "base64")));
      this.instance = new WebAssembly.Instance(this.module, {});
    }
    return this.instance.exports;
  }

  // The address of a block of so many bytes.
  room(size) {
    const place = this.exports.trac_web_allocate(BigInt(size));
    if (place === 0n) throw new Refused("no memory");
    return place;
  }

  // The address and the length of bytes that are put there.
  put(bytes) {
    const place = this.room(bytes.length);
    new Uint8Array(this.exports.memory.buffer).set(bytes, Number(place));
    return [place, BigInt(bytes.length)];
  }

  number(place) {
    return Number(new DataView(this.exports.memory.buffer).getBigUint64(Number(place), true));
  }

  // Calls a function of the module: it is given texts and numbers, room for its reply, and room for numbers beside.
  call(name, given, size, beside) {
    this.exports.trac_web_begin(BigInt(MEMORY));
    const words = given.flatMap((it) => (it instanceof Uint8Array ? this.put(it) : [BigInt(it)]));
    const output = this.room(size), counts = Array.from({ length: 1 + beside }, () => this.room(8));
    const status = this.exports[`trac_web_${name}`](...words, output, BigInt(size), ...counts);
    const [written, ...others] = counts.map((it) => this.number(it));
    const from = Number(output);
    return { status, reply: Buffer.from(this.exports.memory.buffer.slice(from, from + written)), others };
  }

  // The same with more room while the reply is too long. `told` is given the front of the reply that each call has.
  ask(name, given, beside, told) {
    for (let size = FIRST_ROOM; ; size *= MORE_ROOM) {
      try {
        const answer = this.call(name, given, size, beside);
        told(answer.reply);
        if (answer.status !== TOO_LONG) return answer;
      } catch (fault) {
        if (fault instanceof Refused) return { status: NO_MEMORY, reply: Buffer.alloc(0), others: [0] };
        // (what was cut off is not used again; what is thrown may be that nobody reads the reply)
        this.instance = null;
        throw fault;
      }
    }
  }

  // A run over all of its input, by so many steps at most; how many were taken stands in `others`.
  run(tape, steps, decimals, told = () => {}) {
    return this.ask("run", [tape, steps, decimals], 1, told);
  }

  // A session of the debugger for scripts.
  debug(tape, commands, { journal, decimals }, told = () => {}) {
    return this.ask("debug", [tape, commands, journal, decimals], 0, told);
  }

  // A walk.
  walk(program, lines, { journal, keep, decimals }, told = () => {}) {
    return this.ask("walk", [program, lines, journal, BigInt(keep) << 20n, decimals], 0, told);
  }

  // The doubts of a program, of which it tells how many places in `others`.
  doubts(tape, steps, decimals) {
    return this.ask("doubts", [tape, steps, decimals], 1, () => {});
  }

  // How far a program comes by so many steps at most, over input that has ended or may go on: the step that it stands
  // before, whether it waits for input, how many bytes of that are not read, and the meta character. Nothing, where the
  // module cannot tell.
  reach(tape, steps, hasEnded, decimals) {
    const lines = `${hasEnded ? "e\n" : ""}s ${Math.min(steps, 999_999_999_999)}\np\n`;
    const { status, reply } = this.walk(tape, Buffer.from(lines), { journal: 8192, keep: 8, decimals });
    const said = reply.toString("latin1");
    const last = (word) => said.slice(said.lastIndexOf(`\n${word} `) + 1);
    const at = /^step +(\d+), back to \d+; (\d+) bytes? of input not read, /.exec(last("step"));
    const meta = /^forms .*, meta (.+), trace o(?:n|ff)$/m.exec(last("forms"));
    if (status !== ENDED || !at || !meta) return undefined;
    const waits = said.startsWith("the program waits for input: ");
    return { step: Number(at[1]), waits, unread: Number(at[2]), meta: byteShown(meta[1]) };
  }
}
