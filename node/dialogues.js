// Dialogues: the debugger for scripts, and walks. Each line is answered when it has come.

const LINE_LIMIT = 4096, LINE_FEED = 10;
// So many bytes of a line show that it is too long, also if the last of them is a carriage return before its end.
const LONGEST_LINE = LINE_LIMIT + 2;
// A walk passes over a line of so many bytes, and ends at one of more.
const LONGEST_PASSED = 2 ** 32;
const ENDLESS = "this line has more than 4,294,967,296 bytes: it ends the walk\n";

// A dialogue of lines. `ask` answers lines, the first of all; `hasQuit` says whether one of them ended it.
class Dialogue {
  constructor() {
    this.input = new Taken();
    this.asked = 0;
    // how much is kept of the line that comes
    this.width = 0;
  }

  // Takes what has come. Of a line that is too long, which may never end, no more is kept than shows that.
  take(bytes) {
    let from = 0;
    for (let at = 0; at < bytes.length;) {
      const feed = bytes.indexOf(LINE_FEED, at), end = feed < 0 ? bytes.length : feed;
      const most = at + LONGEST_LINE - this.width;
      if (end > most) {
        this.keep(Buffer.from(bytes.subarray(from, most)));
        from = end;
      }
      this.width = feed < 0 ? Math.min(this.width + end - at, LONGEST_LINE) : 0;
      at = end + 1;
    }
    this.keep(from === 0 ? bytes : Buffer.from(bytes.subarray(from)));
  }

  keep(bytes) {
    if (bytes.length === 0) return;
    this.input.add(bytes);
    if (this.input.length > INPUT_LIMIT) throw endOf(NO_MEMORY);
  }

  // Answers the whole lines that have come. A line that is too long is answered before its end, but not between
  // prompts.
  look() {
    const all = this.input.all(), whole = all.lastIndexOf(LINE_FEED) + 1;
    const end = all.length - whole > LINE_LIMIT + 1 && !this.options.prompt ? all.length : whole;
    if (end === this.asked) return;
    this.asked = end;
    this.answer(all.subarray(0, end), false);
  }

  finish() {
    this.answer(this.input.all(), true);
  }

  // Answers lines; ends where they end it, or no more come.
  answer(lines, hasEnded) {
    const { status } = this.ask(lines);
    if (status !== ENDED) throw this.ending(status, lines);
    if (hasEnded || this.hasQuit(lines)) throw endOf(ENDED);
  }

  ending(status) {
    return endOf(status);
  }
}

// A session of the debugger for scripts.
class Session extends Dialogue {
  constructor(engine, tape, options, streams) {
    super();
    this.written = new Written((bytes) => streams.write(bytes));
    Object.assign(this, { engine, tape, options });
  }

  ask(lines) {
    return this.engine.debug(this.tape, lines, this.options, this.written.show);
  }

  // (all lines before it are understood)
  hasQuit(lines) {
    return /(?:^|\n)q\r?\n/.test(lines.toString("latin1"));
  }

  ending(status, lines) {
    if (status !== NOT_UNDERSTOOD) return endOf(status);
    return new End(status, `trac: line ${this.wrongLine(lines)}: not understood`);
  }

  // The number of the first line that is not understood: no program changes that, so an empty one is debugged by half
  // of the lines that may have it, and by half of that again. Lines that are surely understood are left out.
  wrongLine(lines) {
    const all = lines.toString("latin1").split("\n").map((line, at) => ({ line, number: at + 1 }));
    const some = all.filter(({ line }) => !/^(?:p|c|q|)\r?$/.test(line));
    let first = 0, last = some.length - 1;
    while (first < last) {
      const middle = (first + last) >> 1;
      const asked = some.slice(first, middle + 1).map(({ line }) => `${line}\n`).join("");
      const { status } = this.engine.debug(Buffer.alloc(0), Buffer.from(asked, "latin1"), this.options);
      if (status === NOT_UNDERSTOOD) last = middle;
      else first = middle + 1;
    }
    return some[first].number;
  }
}

// A walk. With a prompt it answers one line after another.
class Walk extends Dialogue {
  constructor(engine, program, options, streams) {
    super();
    this.written = new Written((bytes) => streams.write(bytes));
    Object.assign(this, { engine, program, options, streams });
    // how long the line is that comes
    this.size = 0;
    if (options.prompt) this.prompt(Buffer.alloc(0));
  }

  take(bytes) {
    super.take(bytes);
    const whole = bytes.lastIndexOf(LINE_FEED) + 1;
    this.size = bytes.length - whole + (whole > 0 ? 0 : this.size);
    if (this.size <= LONGEST_PASSED) return;
    super.answer(this.input.all(), false);
    this.streams.write(Buffer.from(ENDLESS));
    throw endOf(SPENT);
  }

  ask(lines, told = this.written.show) {
    return this.engine.walk(this.program, lines, this.options, told);
  }

  // Whether the walk has ended with these lines: then another one is not answered. It is tried if a line may say so.
  hasQuit(lines) {
    if (!/(?:^|\n)[ \t]*(?:"|q|exit)/.test(lines.toString("latin1"))) return false;
    return this.screen(lines).length === this.ask(lines, () => {}).reply.length;
  }

  // What is said to lines, and then of the state.
  screen(lines) {
    const more = lines.length === 0 || lines.at(-1) === LINE_FEED ? "p\n" : "\np\n";
    return this.ask(Buffer.concat([lines, Buffer.from(more)]), () => {}).reply;
  }

  answer(lines, hasEnded) {
    if (!this.options.prompt) {
      super.answer(lines, hasEnded);
      return;
    }
    for (let end = this.prompted; end < lines.length; this.prompted = end) {
      end = lines.indexOf(LINE_FEED, end) + 1 || lines.length;
      const front = lines.subarray(0, end);
      super.answer(front, false);
      this.prompt(front);
    }
    if (hasEnded && this.streams.isTerminal) this.streams.write(Buffer.from("\n"));
    if (hasEnded) throw endOf(ENDED);
  }

  // Writes the number of the next step, after these lines.
  prompt(lines) {
    const screen = this.screen(lines), last = screen.toString("latin1", screen.lastIndexOf("\nstep ") + 1);
    const [, step] = /^step +(\d+),/.exec(last);
    this.streams.write(Buffer.from(`${step}> `));
    this.prompted = lines.length;
  }
}
