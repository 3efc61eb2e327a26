// The standard streams.

// A look waits until no input has come for so many milliseconds, and for as long as the last look took, within this.
const LEAST_WAIT = 4, MOST_WAIT = 250;
// Input that never rests is looked at once there is so much, and then twice as much.
const FIRST_SIZE = 2 ** 16;

const pause = new Int32Array(new SharedArrayBuffer(4));

// Writes all of these bytes to a stream that may be busy.
function writeAll(stream, bytes) {
  for (let at = 0; at < bytes.length;) {
    try {
      at += fs.writeSync(stream, bytes, at);
    } catch (fault) {
      if (fault.code !== "EAGAIN") throw fault;
      Atomics.wait(pause, 0, 0, 5);
    }
  }
}

class Streams {
  get isTerminal() {
    return tty.isatty(0);
  }

  write(bytes) {
    try {
      writeAll(1, bytes);
    } catch {
      throw endOf(NOT_WRITTEN);
    }
  }

  tell(text) {
    try {
      writeAll(2, Buffer.from(text));
    } catch {
      // (nobody can be told)
    }
  }

  // Gives standard input to what answers it, until that ends.
  async feed(answerer) {
    const kind = this.isTerminal ? undefined : statusOf(0);
    if (kind?.isFile() || kind?.isCharacterDevice() || kind?.isDirectory()) this.feedAtOnce(answerer, kind.isFile());
    else await new Coming(answerer, this.isTerminal).end();
  }

  // Gives a file, or a device such as /dev/zero, which never ends.
  feedAtOnce(answerer, isFile) {
    const part = Buffer.allocUnsafe(FIRST_SIZE);
    for (let count = 0, next = FIRST_SIZE, size = 1; size > 0; count += size) {
      size = readAt(0, part);
      if (size > 0) answerer.take(Buffer.from(part.subarray(0, size)));
      if (isFile || count + size < next) continue;
      answerer.look();
      next *= 2;
    }
    answerer.finish();
  }
}

// What a stream is; it cannot be read, if nobody knows.
function statusOf(stream) {
  try {
    return fs.fstatSync(stream);
  } catch {
    throw endOf(NOT_READ);
  }
}

function readAt(stream, part) {
  try {
    return fs.readSync(stream, part, 0, part.length, null);
  } catch (fault) {
    // (so Windows tells the end)
    if (fault.code === "EOF") return 0;
    throw endOf(NOT_READ);
  }
}

// Standard input that comes while somebody writes it: a pipe, or a terminal.
class Coming {
  constructor(answerer, isTerminal) {
    Object.assign(this, { answerer, isTerminal, count: 0, next: FIRST_SIZE, took: 0, timer: undefined });
  }

  // Ends as what answers does.
  end() {
    return new Promise((_, reject) => {
      const attempt = (deed) => {
        try {
          deed();
        } catch (fault) {
          process.stdin.destroy();
          reject(fault);
        }
      };
      process.stdin.on("data", (bytes) => attempt(() => this.take(bytes, attempt)));
      process.stdin.on("end", () => attempt(() => {
        clearTimeout(this.timer);
        this.answerer.finish();
      }));
      process.stdin.on("error", () => attempt(() => {
        clearTimeout(this.timer);
        this.answerer.look();
        throw endOf(NOT_READ);
      }));
    });
  }

  take(bytes, attempt) {
    this.answerer.take(bytes);
    this.count += bytes.length;
    clearTimeout(this.timer);
    if (this.isTerminal || this.count >= this.next) this.look();
    else this.timer = setTimeout(() => attempt(() => this.look()), Math.min(LEAST_WAIT + this.took, MOST_WAIT));
  }

  look() {
    const from = Date.now();
    this.next = Math.max(this.next, 2 * this.count);
    this.answerer.look();
    this.took = Date.now() - from;
  }
}
