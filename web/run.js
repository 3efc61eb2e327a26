// A run: a program with its input, and what that came to.

/**
 * What was given at a step: a line of input, or several.
 * @typedef {{ step: number, bytes: Uint8Array }} Line
 */

/**
 * What is asked to be run: a program, its input, whether that has ended, and how many steps it may take.
 * @typedef {object} Wanted
 * @property {Uint8Array} program
 * @property {Line[]} inputs
 * @property {boolean} isClosed
 * @property {number} budget
 * @property {boolean} [isNew] whether nothing of the run before holds
 * @property {number} [from] how many steps of it the run before has taken
 */

/**
 * The same once all input is put together.
 * @typedef {Wanted & { tape: Uint8Array }} Begin
 */

/**
 * A step, and how much was read and printed until then.
 * @typedef {{ step: number, position: number, printed: number }} Landmark
 */

/**
 * What the processor says that a run comes to: where it ends and why, what it has read and printed there, the meta
 * character, and whether it reads a byte there.
 * @typedef {object} Came
 * @property {number} end
 * @property {string | null} why
 * @property {string} stand
 * @property {Landmark[]} landmarks
 * @property {number} read
 * @property {number} printed
 * @property {Uint8Array} output
 * @property {string} meta
 * @property {boolean} isOfByte
 * @property {States | null} window the last states
 */

export class Run {
  /**
   * @param {Begin} wanted
   * @param {Came} came
   * @param {Story} story
   */
  constructor(wanted, came, story) {
    this.program = wanted.program;
    this.inputs = wanted.inputs;
    this.isClosed = wanted.isClosed;
    this.budget = wanted.budget;
    this.tape = wanted.tape;
    this.end = came.end;
    this.why = came.why;
    this.stand = came.stand;
    this.landmarks = came.landmarks;
    this.read = came.read;
    this.printed = came.printed;
    this.output = came.output;
    this.meta = came.meta;
    this.isOfByte = came.isOfByte;
    this.story = story;
    // whether its calls and doubts are known, and whether its doubts are
    this.isGathered = this.isDoubted = false;
  }

  // What of it can be run anew, with other words.
  /** @param {Partial<Wanted>} changes @returns {Wanted} */
  wanted(changes) {
    const { program, inputs, isClosed, budget } = this;
    return { program, inputs, isClosed, budget, ...changes };
  }

  // Whether what is not read has more than line ends and blanks.
  /** @param {number} from */
  hasText(from) {
    return this.tape.subarray(from).some((byte) => byte > 32);
  }

  // Whether input may be given at a step until which so much is read: where it can come at the end of the run, or else
  // came after this step, or ended. `isOffered` says that more of a program that is done is to be typed.
  /** @param {number} step @param {number} read @param {boolean} isOffered */
  takesInput(step, read, isOffered) {
    const isOpen = this.stand === "waits" || (this.stand === "done" && (isOffered || this.hasText(this.read)));
    if (!this.isClosed && isOpen) return true;
    return step < this.end && (this.isClosed || this.read > Math.max(read, this.program.length));
  }
}
