// trac lint: the doubts of programs.

const FAILED = 2;
const LIMIT_PASSED = "where a limit is passed: too much text, or too many arguments, forms or blocks";
const NO_MORE_MEMORY = "there is no memory", TOO_MUCH = "it has more than 33554432 bytes";

// The starts of the lines of a text.
function startsIn(text) {
  const starts = [0];
  for (let at = text.indexOf(10); at >= 0; at = text.indexOf(10, at + 1)) starts.push(at + 1);
  return starts;
}

// What the module says of a tape, with the names of the files that hold it: the program, and what it reads after so
// many bytes.
function named(reply, tape, length, name, inputName) {
  const lines = reply.toString("latin1").split("\n"), hasInput = length < tape.length;
  const starts = hasInput ? startsIn(tape) : [], ofInput = hasInput ? startsIn(tape.subarray(length)) : [];
  const place = (line, column) => {
    const at = hasInput ? starts[line - 1] + column - 1 : 0;
    if (!hasInput || at < length) return `${name}:${line}:${column}`;
    const input = ofInput.findLastIndex((start) => start <= at - length);
    return `${inputName}:${input + 1}:${at - length - ofInput[input] + 1}`;
  };
  const bytes = (text) => Buffer.from(text).toString("latin1");
  const at = (_, line, column) => bytes(place(Number(line), Number(column)));
  const told = lines.map((line) => line.replace(/^:(\d+):(\d+)/, at));
  return Buffer.from(told.join("\n"), "latin1");
}

// Looks through programs.
class Linter {
  constructor(engine, { input, steps, decimals }, streams) {
    Object.assign(this, { engine, input, steps, decimals, streams });
  }

  // The highest status of these files. If the output cannot be written, the others are not looked through.
  all(files) {
    let status = 0;
    for (const file of files) {
      try {
        status = Math.max(status, this.one(file));
      } catch (fault) {
        if (!(fault instanceof End) || fault.status !== NOT_WRITTEN) throw fault;
        return this.told(file, "the output cannot be written");
      }
    }
    return status;
  }

  told(file, why) {
    this.streams.tell(`trac lint: ${shown(file) || "''"}: ${why}\n`);
    return FAILED;
  }

  // The bytes of a file; nothing, which is said, if they cannot be had.
  read(file) {
    try {
      const text = tapeIn(file);
      if (text.length <= TAPE_LIMIT) return text;
      this.told(file, TOO_MUCH);
    } catch (fault) {
      if (!(fault instanceof End)) throw fault;
      this.told(file, "it cannot be read");
    }
    return undefined;
  }

  one(file) {
    const program = this.read(file);
    if (!program) return FAILED;
    const more = this.input === undefined ? Buffer.alloc(0) : this.read(this.input);
    if (!more) return FAILED;
    const tape = Buffer.concat([program, more]);
    if (tape.length > TAPE_LIMIT) return this.told(file, `with its input ${TOO_MUCH}`);
    const { status, reply, others: [places] } = this.engine.doubts(tape, this.steps, this.decimals);
    if (reply.length) this.streams.write(named(reply, tape, program.length, legible(file), legible(this.input ?? "")));
    return this.ended(file, tape, status, places > 0 ? 1 : 0);
  }

  // Says why a program was not run to its end, if it was not.
  ended(file, tape, status, otherwise) {
    if (status === ENDED) return otherwise;
    const unit = (steps) => `${steps} step${steps === 1 ? "" : "s"}`;
    if (status === NO_MEMORY) return this.told(file, "stopped, there is no memory to go on");
    if (status === SPENT) this.told(file, `stopped after ${unit(this.steps)}; --steps allows more`);
    else {
      const reach = this.engine.reach(tape, this.steps, true, this.decimals);
      if (!reach) return this.told(file, NO_MORE_MEMORY);
      this.told(file, `stopped after ${unit(reach.step)}, ${LIMIT_PASSED}`);
    }
    return otherwise;
  }
}
