// The Worker of the page. It is given the module once, and the input where that is another than before. All requests
// are done by one instance of the module, which forgets what it had of one before the next: so its memory is as large
// as the largest needs, and no memory of others is left behind.

// A reply may be so long, in bytes, and the memory of the module so large.
const MOST = 1 << 27, MEMORY = 1 << 29;
const FULL = 9, NO_MEMORY = 5;
const JOURNAL = 1048576, KEEP = 1 << 28, DECIMALS = 128;

// Why a request is not answered, where the module is as it was before.
class Refusal extends Error {}

/** @typedef {(...words: bigint[]) => number} Call */
/** @typedef {"trac_web_run" | "trac_web_debug" | "trac_web_walk" | "trac_web_way" | "trac_web_doubts"} CallName */

/**
 * What the module has: its memory, how that is taken, and its calls.
 * @typedef {object} Exports
 * @property {WebAssembly.Memory} memory
 * @property {(memory: bigint) => void} trac_web_begin
 * @property {(size: bigint) => bigint} trac_web_allocate
 * @property {() => bigint} trac_web_refusals
 * @property {Call} trac_web_run
 * @property {Call} trac_web_debug
 * @property {Call} trac_web_walk
 * @property {Call} trac_web_way
 * @property {Call} trac_web_doubts
 */

/**
 * The name of a call, what it takes before the room for its reply, and how many numbers it writes beside.
 * @typedef {[name: CallName, words: bigint[], beside?: number]} Order
 */

/**
 * A request, with all that its call takes. An input that is another than before comes with it.
 * @typedef {object} Request
 * @property {number} number
 * @property {string} call
 * @property {Uint8Array} tape
 * @property {number} room
 * @property {number} [most]
 * @property {number} memory
 * @property {number} decimals
 * @property {string} commands
 * @property {number} budget
 * @property {number} [journal]
 * @property {number} [keep]
 * @property {number} step
 * @property {number} kind
 * @property {number[]} numbers
 * @property {Uint8Array} name
 */

// What the module has.
class Instance {
  /** @param {WebAssembly.Module} module */
  constructor(module) {
    const { exports } = new WebAssembly.Instance(module, {});
    /** @type {Exports} */
    this.exports = /** @type {Exports & WebAssembly.Exports} */ (exports);
  }

  // Forgets all that there is; the memory may grow to so many bytes from here on.
  /** @param {number} memory */
  begin(memory) {
    this.exports.trac_web_begin(BigInt(memory));
  }

  // The address of a block of so many bytes.
  /** @param {number} size */
  room(size) {
    const address = this.exports.trac_web_allocate(BigInt(size));
    if (address === 0n) throw new Refusal("no memory");
    return address;
  }

  // The address and the length of bytes that are put there.
  /** @param {Uint8Array} bytes @returns {[bigint, bigint]} */
  put(bytes) {
    const address = this.room(Math.max(bytes.length, 1));
    new Uint8Array(this.exports.memory.buffer).set(bytes, Number(address));
    return [address, BigInt(bytes.length)];
  }

  // Does what is ordered, with a room of so many bytes for its reply. It may write some numbers beside.
  /** @param {Order} order @param {number} size */
  call([name, words, beside = 0], size) {
    const output = this.room(size), written = this.room(8);
    const others = Array.from({ length: beside }, () => this.room(8));
    const status = this.exports[name](...words, output, BigInt(size), written, ...others);
    const length = Number(new DataView(this.exports.memory.buffer).getBigUint64(Number(written), true));
    return { status, bytes: new Uint8Array(this.exports.memory.buffer, Number(output), length).slice() };
  }
}

/** @param {string} text */
const encode = (text) => new TextEncoder().encode(text);

/** @type {Record<string, (instance: Instance, request: Request) => Order>} what is to be done for each call */
const CALLS = {
  run: (instance, { tape, budget, decimals }) =>
    ["trac_web_run", [...instance.put(tape), BigInt(budget), BigInt(decimals)], 1],
  debug: (instance, { tape, commands, decimals }) =>
    ["trac_web_debug", [...instance.put(tape), ...instance.put(encode(commands)), BigInt(JOURNAL), BigInt(decimals)]],
  walk: (instance, { tape, commands, journal = JOURNAL, keep = KEEP, decimals }) => {
    const numbers = [journal, keep, decimals].map(BigInt);
    return ["trac_web_walk", [...instance.put(tape), ...instance.put(encode(commands)), ...numbers]];
  },
  way: (instance, { tape, step, kind, numbers, name, decimals }) => {
    const place = [step, kind, ...numbers].map(BigInt), most = [JOURNAL, decimals].map(BigInt);
    return ["trac_web_way", [...instance.put(tape), ...place, ...instance.put(name), ...most]];
  },
  doubts: (instance, { tape, budget, decimals }) =>
    ["trac_web_doubts", [...instance.put(tape), BigInt(budget), BigInt(decimals)], 1],
};

// Answers a request: a reply that is too long for its room is asked for again with twice the room or more. If so much
// is not wanted, its front is enough.
/** @param {Instance} instance @param {Request} request */
function answer(instance, request) {
  const most = request.most ?? MOST;
  for (let room = Math.min(request.room, most); ; room = Math.min(Math.max(room * 2, 1 << 22), most)) {
    instance.begin(request.memory);
    const { status, bytes } = instance.call(CALLS[request.call](instance, request), room);
    if (status === NO_MEMORY || isShort(instance, request)) throw new Refusal("no memory");
    if (status !== FULL || (room === most && request.most)) return { status, bytes };
    if (room === most) throw new Refusal("the reply is too long");
  }
}

// Whether memory was refused that the module may have if nothing else takes any.
/** @param {Instance} instance @param {Pick<Request, "memory">} request */
function isShort({ exports }, { memory }) {
  return memory < MEMORY && exports.trac_web_refusals() > 0n;
}

/** @type {Pick<Worker, "postMessage" | "onmessage">} the page */
const page = /** @type {Window & Pick<Worker, "postMessage" | "onmessage">} */ (self);
/** @type {Instance | null} */
let instance = null;
// the input
let tape = new Uint8Array(0);

// Answers a request, or says why not.
/** @param {Promise<WebAssembly.Module>} compiled @param {Request} request */
async function reply(compiled, request) {
  const { number } = request;
  tape = request.tape ?? tape;
  const asked = { ...request, tape, decimals: request.decimals ?? DECIMALS, memory: request.memory ?? MEMORY };
  const module = await compiled;
  try {
    instance ??= new Instance(module);
    const { status, bytes } = answer(instance, asked);
    page.postMessage({ number, status, bytes, memory: instance.exports.memory.buffer.byteLength }, [bytes.buffer]);
  } catch (fault) {
    const refused = fault instanceof Error ? fault.message : String(fault);
    page.postMessage({ number, refused, isShort: instance !== null && isShort(instance, asked) });
    // (one that was cut off is not used again)
    if (!(fault instanceof Refusal)) instance = null;
  }
}

page.onmessage = ({ data }) => {
  const compiled = WebAssembly.compile(data);
  compiled.then(() => page.postMessage({ isReady: true }), (fault) => page.postMessage({ fault: fault.message }));
  page.onmessage = (event) => reply(compiled, event.data);
};
