// The proved processor, in a Worker. It keeps nothing but the input: each request has commands and a budget, and is
// answered as if it were the first.
import { bytesOfSigns } from "./bytes.js";
import { textIn } from "./elements.js";

// The answer was dropped, since the Worker was stopped.
export class Stopped extends Error {}

// The processor could not answer: memory was refused, or the answer is longer than a page takes.
export class Refused extends Error {
  /** @param {string} why */
  constructor(why) {
    super(why);
    this.why = why;
  }
}

// A module beside others takes so much memory at most, in bytes. What needs more is done alone, as is all over a long
// input.
const SHARED = 96 << 20;
const ALONE = 512 << 20;
const LONG_TAPE = 1 << 20;

/**
 * What a request may take beside the input, as its call needs it; how long the answer may be; and whether it has spare
 * memory alone.
 * @typedef {object} Words
 * @property {string} [commands]
 * @property {number} [budget]
 * @property {number} [journal]
 * @property {number} [keep]
 * @property {number} [step]
 * @property {number} [kind]
 * @property {number[]} [numbers]
 * @property {Uint8Array} [name]
 * @property {number} [most]
 * @property {boolean} [isSpare]
 */

/**
 * The answer to a request: what status the call had, and what it wrote.
 * @typedef {{ status: number, bytes: Uint8Array }} Answer
 */

/**
 * What a Worker says: that it is ready, or why it is not; an answer, with how much memory the module has then; or why
 * there is none.
 * @typedef {{ isReady: true } | { fault: string } | Answer & { number: number, memory: number }
 *   | { number: number, refused: string, isShort: boolean }} Said
 */

/**
 * A request that waits for its answer.
 * @typedef {object} Request
 * @property {Engine} engine
 * @property {number} number
 * @property {Uint8Array} tape
 * @property {Words & { call: string, room: number }} words
 * @property {(answer: Answer) => void} resolve
 * @property {(fault: unknown) => void} reject
 */

// What is to be done alone: one request after the other, of all engines of a page.
class Turns {
  constructor() {
    /** @type {Engine[]} */
    this.engines = [];
    /** @type {Request[]} */
    this.requests = [];
    /** @type {Request | null} */
    this.atWork = null;
    // inputs over which all is done alone
    this.large = new WeakSet();
  }

  /** @param {Uint8Array} tape */
  isLarge(tape) {
    return tape.length > LONG_TAPE || this.large.has(tape);
  }

  /** @param {Request} request */
  add(request) {
    this.requests.push(request);
    this.next();
  }

  // Begins the next one, of the first engine that has one. An engine that does nothing, or only what has spare memory,
  // keeps none meanwhile.
  next() {
    if (this.atWork || this.requests.length === 0) return;
    const ranks = this.requests.map(({ engine }) => this.engines.indexOf(engine));
    const [next] = this.requests.splice(ranks.indexOf(Math.min(...ranks)), 1);
    this.atWork = next;
    for (const engine of this.engines) if (engine !== next.engine) engine.giveWay();
    next.engine.send(next, ALONE);
  }

  // The request that was done alone has an answer, or none is wanted. (All that is dropped at once is dropped first.)
  /** @param {Request} request */
  end(request) {
    if (this.atWork !== request) return;
    this.atWork = null;
    queueMicrotask(() => this.next());
  }

  // Drops what an engine asks for.
  /** @param {Engine} engine */
  drop(engine) {
    this.requests = this.requests.filter((request) => request.engine !== engine);
    if (this.atWork?.engine === engine) this.end(this.atWork);
  }
}

export class Engine {
  // The bytes of the module, the text of the Worker, and how many bits numbers have.
  /** @param {Uint8Array} module @param {string} source @param {number} decimals @param {Turns} [turns] */
  constructor(module, source, decimals, turns = new Turns()) {
    this.module = module;
    this.source = source;
    this.decimals = decimals;
    this.turns = turns;
    turns.engines.push(this);
    this.address = URL.createObjectURL(new Blob([source], { type: "text/javascript" }));
    this.last = 0;
    /** @type {Map<number, Request>} */
    this.waiting = new Map();
    /** @type {(count: number) => void} what is told how many requests wait */
    this.told = () => {};
    /** @type {Worker | null} */
    this.worker = null;
    /** @type {Uint8Array | null} the input that the Worker has */
    this.tape = null;
    // how many requests it has, and whether it has compiled the module
    this.sent = 0;
    this.isUp = false;
    /** @type {Promise<void> | undefined} what is ready once it has, and what says that */
    this.ready = undefined;
    /** @type {{ resolve: () => void, reject: (fault: unknown) => void } | undefined} */
    this.isReady = undefined;
  }

  // Another one, for what goes on beside. Its Worker begins with its first request.
  twin() {
    return new Engine(this.module, this.source, this.decimals, this.turns);
  }

  // Begins a Worker. What an earlier one still says is dropped. It is ready once it has compiled the module.
  start() {
    /** @type {Promise<void>} */
    const ready = new Promise((resolve, reject) => {
      this.isReady = { resolve, reject };
    });
    this.ready = ready;
    ready.catch(() => {});
    const worker = new Worker(this.address);
    [this.worker, this.tape, this.sent, this.isUp] = [worker, null, 0, false];
    worker.onmessage = ({ data }) => {
      if (this.worker === worker) this.take(data);
    };
    worker.onerror = (event) => {
      event.preventDefault();
      if (this.worker === worker) this.fail(new Refused(event.message || "the Worker does not start"));
    };
    worker.postMessage(this.module);
    return worker;
  }

  // Takes an answer.
  /** @param {Said} answer */
  take(answer) {
    if ("isReady" in answer) {
      this.isUp = true;
      this.isReady?.resolve();
      return;
    }
    if ("fault" in answer) {
      this.isReady?.reject(new Refused(answer.fault));
      return;
    }
    this.sent--;
    const request = this.waiting.get(answer.number);
    if (!request) return;
    const isRefused = "refused" in answer;
    const isShort = isRefused && answer.isShort && !request.words.isSpare;
    if (isShort) this.turns.large.add(request.tape);
    // (what needed much memory is not kept)
    if (this.sent === 0 && (isRefused || answer.memory > SHARED)) this.rest();
    this.turns.end(request);
    if (isShort) {
      this.turns.add(request);
      return;
    }
    this.waiting.delete(answer.number);
    this.told(this.waiting.size);
    if (isRefused) request.reject(new Refused(answer.refused));
    else request.resolve(answer);
  }

  // Asks for a call of the module over bytes: its name, the input, what else it takes, and the room that is tried first
  // for the answer. What has spare memory (`isSpare`) is never done alone: it is refused.
  /** @param {string} call @param {Uint8Array} tape @param {Words} [more] @returns {Promise<Answer>} */
  ask(call, tape, more = {}, room = 1 << 20) {
    const number = ++this.last;
    if (more.isSpare && this.turns.isLarge(tape)) return Promise.reject(new Refused("no memory"));
    return new Promise((resolve, reject) => {
      const request = { engine: this, number, tape, words: { call, room, ...more }, resolve, reject };
      this.waiting.set(number, request);
      this.told(this.waiting.size);
      if (this.turns.isLarge(tape)) this.turns.add(request);
      else this.send(request, SHARED);
    });
  }

  // Sends a request to the Worker, which may take so much memory for it; the input only if it has another one.
  /** @param {Request} request @param {number} memory */
  send({ number, tape, words }, memory) {
    const worker = this.worker ?? this.start();
    const copy = this.tape === tape ? null : tape.slice();
    [this.tape, this.sent] = [tape, this.sent + 1];
    const message = { number, tape: copy, memory, decimals: this.decimals, ...words };
    worker.postMessage(message, copy ? [copy.buffer] : []);
  }

  // Keeps no memory if it does nothing, or only what has spare memory.
  giveWay() {
    const requests = [...this.waiting.values()];
    if (requests.length && requests.every(({ words }) => words.isSpare)) this.stop();
    else this.rest();
  }

  // Ends a Worker that does nothing, so that it keeps no memory.
  rest() {
    if (!this.worker || !this.isUp || this.sent > 0) return;
    this.worker.terminate();
    this.worker = null;
  }

  // Ends what is going on, at once.
  stop() {
    this.worker?.terminate();
    this.worker = null;
    this.fail(new Stopped("stopped"));
  }

  /** @param {Error} fault */
  fail(fault) {
    const requests = [...this.waiting.values()];
    this.waiting.clear();
    this.turns.drop(this);
    this.told(0);
    this.isReady?.reject(fault);
    for (const request of requests) request.reject(fault);
  }
}

// The bytes that are packed in a text: by deflate, and in base64.
/** @param {string} text */
export async function unpackedText(text) {
  const packed = new Blob([bytesOfSigns(text)]).stream();
  return new Uint8Array(await new Response(packed.pipeThrough(new DecompressionStream("deflate"))).arrayBuffer());
}

// The engine of this page, whose numbers have so many bits.
/** @param {number} decimals */
export async function engineOfPage(decimals) {
  const module = await unpackedText(textIn("module"));
  const engine = new Engine(module, textIn("worker"), decimals);
  try {
    engine.start();
  } catch (fault) {
    // (where no Worker may begin, the page goes on without)
    engine.isReady?.reject(fault);
  }
  return engine;
}

/** @type {Record<string, string>} what is said where the processor could not answer */
const REFUSALS = {
  "no memory": "Memory was refused, for this page takes 512 MiB for a run: a form may grow with each call.",
  "the reply is too long": "This is too long to be shown: the states around one step have more than 128 MiB.",
  "the output is too long": "This is too long to be shown: more than 64 MiB are printed.",
  "the input is too long": "A limit is passed: a program and its input may have at most 33,554,432 bytes.",
};

// What is said of a fault.
/** @param {unknown} fault */
export function wordsOf(fault) {
  if (fault instanceof Refused) return REFUSALS[fault.why] ?? `Memory was refused (${fault.why}).`;
  return fault instanceof Error ? fault.message : String(fault);
}
