// The states of a run. To go to one is to run the program anew up to it: so there is no limit to going back. Those
// around the cursor are kept.
import { NotUnderstood, Replies, State } from "./replies.js";
import { MEASURED, REACHED, SCREEN, walked } from "./asking.js";

// So much is kept of states, and is taken in one reply, in bytes.
const KEPT_STATES = 64 << 20;
export const WINDOW = 4 << 20;
// So many states are fetched where one is wanted, and so many later, to be there when they are.
const NEAR_STEPS = 60;
const WIDE_STEPS = 1000;

/**
 * States that follow one another, the first of them at this step; and how long their texts are together.
 * @typedef {{ from: number, states: State[], length: number }} States
 */

/**
 * A state, and those before and after it, if there are any.
 * @typedef {{ before: State | null, at: State, after: State | null }} Around
 */

/**
 * A way to a step: commands, the landmark that it passes last, and how much room the replies take.
 * @typedef {{ commands: string[], last: Landmark, room: number }} WayTo
 */

export class Story {
  // The input, and landmarks of the run: at these steps what was printed is dropped on the way to a state. One
  // processor is asked for what is wanted now, the other, if there is one, for what may be wanted soon.
  /** @param {Asked} engine @param {Uint8Array} tape @param {Landmark[]} landmarks @param {Asked} [ahead] */
  constructor(engine, tape, landmarks, ahead = engine) {
    this.engine = engine;
    this.ahead = ahead;
    this.tape = tape;
    this.landmarks = landmarks;
    /** @type {States[]} what is kept */
    this.windows = [];
    // how long a state near here is, and where the cursor is
    this.size = 1000;
    this.cursor = 0;
    /** @type {Promise<unknown>} */
    this.fetching = Promise.resolve();
    this.isWidening = false;
    /** @type {State[]} those that were shown last: of these alone the parts are kept */
    this.shown = [];
  }

  // Commands that go to a step, the last of which prints the state there.
  /** @param {number} step @returns {WayTo} */
  way(step) {
    const stops = this.landmarks.filter((mark) => mark.step < step);
    const commands = stops.map((mark, index) => `s ${mark.step - (index ? stops[index - 1].step : 0)}\nc\n`);
    const last = stops[stops.length - 1] ?? { step: 0, position: 0, printed: 0 };
    commands.push(`s ${step - last.step}\np\nc\n`);
    // (what is printed up to the next landmark bounds what is printed up to the step, twice, and once in what was
    // dropped before)
    const next = this.landmarks[stops.length];
    return { commands, last, room: last.printed + 2 * ((next ?? last).printed - last.printed) };
  }

  // Reads the replies to those. Returns what was read and printed until then.
  /** @param {Replies} replies @param {WayTo} way */
  static passed(replies, way) {
    const { before, why } = Story.went(replies, way);
    if (why) throw new NotUnderstood(`the way is ${why}`);
    return before;
  }

  // The same, or how many steps it took, and why no more.
  /** @param {Replies} replies @param {WayTo} way */
  static went(replies, { commands, last }) {
    let step = 0, printed = 0, position = last.position;
    for (let left = commands.length; left > 0; left--) {
      const { done, why } = replies.moved("forward");
      step += done;
      if (why) return { step, before: { position, printed }, why };
      if (left === 1) position += replies.passed().position;
      printed += replies.committedLength();
    }
    return { step, before: { position, printed }, why: null };
  }

  // The state at a step where it is kept, or nothing.
  /** @param {number} step */
  kept(step) {
    const window = this.windowOf(step, step);
    return window && window.states[step - window.from];
  }

  // The state at a step with its neighbours, so that what steps did can be told. All are of one window.
  /** @param {number} step @param {number} end */
  async around(step, end) {
    return /** @type {Around} */ (await this.aroundIf(step, end, () => true));
  }

  // The same, or nothing where it is no more wanted once its turn comes.
  /** @param {number} step @param {number} end @param {() => boolean} isWanted */
  async aroundIf(step, end, isWanted) {
    const [from, to] = [Math.max(step - 1, 0), Math.min(step + 1, end)];
    if (!this.windowOf(from, to)) {
      await this.alone(() => !isWanted() || this.windowOf(from, to) || this.fetch(from, to, end, NEAR_STEPS));
    }
    const window = this.windowOf(from, to);
    if (!window) return null;
    /** @param {number} one */
    const at = (one) => window.states[one - window.from];
    const states = { before: step > 0 ? at(step - 1) : null, at: at(step), after: step < end ? at(step + 1) : null };
    this.show(Object.values(states).flatMap((state) => state ?? []));
    return states;
  }

  // Forgets the parts of the states that were shown before these.
  /** @param {State[]} states */
  show(states) {
    for (const state of this.shown) if (!states.includes(state)) state.kept = null;
    this.shown = states;
  }

  // Fetches more states around the cursor, while nobody waits for them.
  /** @param {number} end */
  widen(end) {
    const step = this.cursor;
    const [from, to] = [Math.max(step - WIDE_STEPS / 4, 0), Math.min(step + WIDE_STEPS / 4, end)];
    if (this.isWidening || this.size > 16384 || this.windowOf(from, to)) return;
    this.isWidening = true;
    this.small(from, to, end, WIDE_STEPS, this.ahead).catch(() => {}).finally(() => {
      this.isWidening = false;
      if (this.cursor !== step) this.widen(end);
    });
  }

  // Forgets all states, so that others have their room.
  letGo() {
    [this.windows, this.shown] = [[], []];
  }

  /** @param {number} from @param {number} to */
  windowOf(from, to) {
    return this.windows.find((window) => window.from <= from && to < window.from + window.states.length);
  }

  // One request at a time.
  /** @param {() => unknown} work */
  alone(work) {
    const done = this.fetching.then(work);
    this.fetching = done.catch(() => {});
    return done;
  }

  // Fetches the states from a step to another, and on both sides as many more as are small together.
  /** @param {number} from @param {number} to @param {number} end @param {number} most */
  async fetch(from, to, end, most) {
    if (this.size * (to - from + 1) <= WINDOW) await this.small(from, to, end, most, this.engine);
    // (they are larger than those before)
    if (!this.windowOf(from, to)) this.keep(await this.large(from, to));
  }

  // The states of some steps that are large, each by itself. What was kept goes first: no more is to be there than is
  // shown.
  /** @param {number} from @param {number} to */
  async large(from, to) {
    this.letGo();
    const { commands, last } = this.way(from);
    const way = [...commands.slice(0, -1), `s ${from - last.step}\nc\n`];
    const text = await walked(this.engine, this.tape, ["e", `s ${from}`, "p"], SCREEN, MEASURED);
    const [reached] = text.matchAll(REACHED);
    if (!reached) throw new NotUnderstood(text.slice(0, 80));
    const states = [];
    for (let step = from; step <= to; step++) {
      const more = `${step > from ? `s ${step - from}\n` : ""}p\n`;
      const { bytes } = await this.engine.ask("debug", this.tape, { commands: way.join("") + more }, this.size * 2);
      const replies = new Replies(bytes);
      const before = { position: this.tape.length - Number(reached[2]), printed: 0 };
      for (let left = way.length; left > 0; left--) {
        replies.goes();
        before.printed += replies.committedLength();
      }
      if (step > from) replies.goes();
      states.push(new State(replies.state(), before));
    }
    return windowOf(from, states);
  }

  // The same, but of large ones only some.
  /** @param {number} from @param {number} to @param {number} end @param {number} most @param {Asked} engine */
  async small(from, to, end, most, engine) {
    const count = Math.min(Math.floor(WINDOW / this.size), most);
    const side = Math.max(Math.floor((count - (to - from + 1)) / 2), 0);
    const window = await this.window(engine, Math.max(from - side, 0), Math.min(to + side, end), WINDOW);
    if (window) this.keep(window);
  }

  // The states of some steps: of so many bytes, if there is a bound, or nothing.
  /** @param {Asked} engine @param {number} first @param {number} last @param {number} bound */
  async window(engine, first, last, bound) {
    const way = this.way(first);
    const commands = way.commands.join("") + "p\n" + "s 1\np\n".repeat(last - first);
    const room = way.room + Math.max((last - first + 2) * this.size * 2, 1 << 18);
    const most = bound && way.room + bound;
    const { status, bytes } = await engine.ask("debug", this.tape, { commands, most }, room);
    if (status !== 0) return this.front(bytes, way, first);
    const replies = new Replies(bytes);
    const before = Story.passed(replies, way);
    const states = [new State(replies.state(), before)];
    for (let step = first; step < last; step++) {
      const { done, why } = replies.moved("forward");
      if (done !== 1 || why) throw new NotUnderstood(`step ${step} is ${why}`);
      states.push(new State(replies.state(), before));
    }
    replies.end();
    return windowOf(first, states);
  }

  // The states that a reply has as a whole whose end is cut off, or nothing.
  /** @param {Uint8Array} bytes @param {WayTo} way @param {number} first */
  front(bytes, way, first) {
    const states = [];
    try {
      const replies = new Replies(bytes);
      const before = Story.passed(replies, way);
      states.push(new State(replies.state(), before));
      while (replies.moved("forward").done === 1) states.push(new State(replies.state(), before));
    } catch (fault) {
      if (!(fault instanceof NotUnderstood)) throw fault;
    }
    return states.length ? windowOf(first, states) : null;
  }

  // Keeps a window, and forgets those that are farthest from the cursor where there is too much.
  /** @param {States} window */
  keep(window) {
    /** @param {States} one */
    const isWithin = (one) => one.from >= window.from && endOf(one) <= endOf(window);
    this.windows = [...this.windows.filter((one) => !isWithin(one)), window];
    this.size = Math.max(Math.ceil(window.length / window.states.length), 100);
    /** @param {States} one */
    const away = ({ from, states }) => Math.max(from - this.cursor, this.cursor - from - states.length, 0);
    this.windows.sort((a, b) => away(a) - away(b));
    let sum = 0;
    this.windows = this.windows.filter((one) => one === window || (sum += one.length) <= KEPT_STATES - window.length);
  }

  // Whether states here are small, so that it costs little to have some more.
  get isSmall() {
    return this.size < 1 << 16;
  }

  // How many sets of so many states are small together.
  /** @param {number} count */
  roomFor(count) {
    return Math.max(Math.floor(WINDOW / (this.size * count)), 1);
  }

  // The states at some steps, from one run.
  /** @param {number[]} steps */
  async at(steps) {
    const rising = [...new Set(steps)].sort((a, b) => a - b);
    const found = new Map(rising.map((step) => /** @type {const} */ ([step, this.kept(step)])));
    const missing = rising.filter((step) => !found.get(step));
    if (missing.length) {
      const way = this.way(missing[0]);
      const commands = [...way.commands, "p\n"];
      missing.slice(1).forEach((step, index) => commands.push(`s ${step - missing[index]}\np\n`));
      const words = { commands: commands.join("") };
      const { bytes } = await this.engine.ask("debug", this.tape, words, way.room + (1 << 22));
      const replies = new Replies(bytes);
      const before = Story.passed(replies, way);
      missing.forEach((step, index) => {
        if (index && replies.moved("forward").why) throw new NotUnderstood("the run ends before this step");
        found.set(step, new State(replies.state(), before));
      });
    }
    return found;
  }
}

// The step after the last of these states.
/** @param {States} window */
function endOf({ from, states }) {
  return from + states.length;
}

// A window of states.
/** @param {number} from @param {State[]} states @returns {States} */
export function windowOf(from, states) {
  return { from, states, length: states.reduce((sum, state) => sum + state.text.length, 0) };
}
