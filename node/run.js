// What answers standard input while that comes: a run, here, and the dialogues. Nothing is kept in the module, so each
// look begins anew, and what was written before is passed over.

// Bytes that come in parts.
class Taken {
  constructor() {
    this.parts = [];
    this.length = 0;
  }

  add(bytes) {
    this.parts.push(bytes);
    this.length += bytes.length;
  }

  all() {
    if (this.parts.length !== 1) this.parts = [Buffer.concat(this.parts)];
    return this.parts[0];
  }
}

// Writes what is longer than what was written before.
class Written {
  constructor(write) {
    this.write = write;
    this.count = 0;
    this.show = (text) => {
      if (text.length <= this.count) return;
      const from = this.count;
      this.count = text.length;
      this.write(text.subarray(from));
    };
  }
}

// The steps of a first stretch, and how many times as many come next: so a run of many steps writes meanwhile.
const FIRST_STEPS = 2_000_000, MORE_STEPS = 4;
// No more input than this is kept.
const INPUT_LIMIT = 3 * 2 ** 27;

// A run. It answers before its input has ended: as soon as the program waits, what it has printed is written.
class Run {
  constructor(engine, { budget, decimals }, streams) {
    Object.assign(this, { engine, budget, decimals });
    this.input = new Taken();
    this.written = new Written((bytes) => streams.write(bytes));
    this.steps = Math.min(FIRST_STEPS, budget);
    // where the program waited last
    this.wait = { step: 0, unread: 0, meta: -1 };
    this.isNew = true;
  }

  take(bytes) {
    const { wait } = this;
    this.input.add(bytes);
    if (this.input.length > INPUT_LIMIT) throw endOf(NO_MEMORY);
    // (a text that waits for its meta character waits on without one)
    if (wait.unread === 0 || bytes.includes(wait.meta)) this.isNew = true;
    wait.unread += bytes.length;
    if (!this.isNew && wait.unread > TAPE_LIMIT) throw endOf(LIMIT);
  }

  // Writes what the program prints before it waits for more; ends if it ends before that.
  look() {
    if (!this.isNew || this.input.length > TAPE_LIMIT) return;
    const tape = this.input.all();
    for (; ; this.steps = Math.min(MORE_STEPS * this.steps, this.budget)) {
      const reach = this.engine.reach(tape, this.steps, false, this.decimals);
      if (!reach) return;
      const { status, others: [steps] } = this.run(tape, reach.waits ? reach.step : this.steps);
      if (reach.waits) {
        this.wait = reach;
        this.isNew = false;
        return;
      }
      // (else the end of the input made a difference)
      if (steps !== reach.step) return;
      if (status !== SPENT || this.steps === this.budget) throw endOf(status);
    }
  }

  // The input has ended: goes on to the end.
  finish() {
    const tape = this.input.all();
    for (; ; this.steps = Math.min(MORE_STEPS * this.steps, this.budget)) {
      const { status } = this.run(tape, this.steps);
      if (status !== SPENT || this.steps === this.budget) throw endOf(status);
    }
  }

  run(tape, steps) {
    return this.engine.run(tape, steps, this.decimals, this.written.show);
  }
}
