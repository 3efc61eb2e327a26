// Files, and how a program ends.

// The end of a program: its status, and the line on standard error, if there is one.
class End extends Error {
  constructor(status, line) {
    super(line ?? "");
    Object.assign(this, { status, line });
  }
}

// What is said of each status, for the programs that are not trac lint.
const ENDINGS = {
  [SPENT]: "budget spent",
  [LIMIT]: "limit passed",
  [NO_MEMORY]: "no memory",
  [NOT_READ]: "read fault",
  [NOT_WRITTEN]: "write fault",
};

const endOf = (status) => new End(status, status === ENDED ? undefined : `trac: ${ENDINGS[status]}`);

// The bytes of a file, one more than a tape may have at most.
function tapeIn(path) {
  try {
    const file = fs.openSync(path, "r");
    try {
      const parts = [];
      let count = 0;
      while (count <= TAPE_LIMIT) {
        const part = Buffer.allocUnsafe(Math.min(2 ** 20, TAPE_LIMIT + 1 - count));
        const size = fs.readSync(file, part, 0, part.length, null);
        if (size === 0) break;
        count += size;
        parts.push(part.subarray(0, size));
      }
      return Buffer.concat(parts);
    } finally {
      fs.closeSync(file);
    }
  } catch {
    throw endOf(NOT_READ);
  }
}

// The same of a program that is debugged.
function programIn(path) {
  const tape = tapeIn(path);
  if (tape.length > TAPE_LIMIT) throw endOf(LIMIT);
  return tape;
}
