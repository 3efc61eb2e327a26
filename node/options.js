// The options of each command, as the programs have them.

const BUDGET_LIMIT = 1_000_000_000_000, JOURNAL_LIMIT = 1_048_576, KEEP_LIMIT = 1_048_576;
// What a count of memory may stand before, and how many bytes it is then.
const UNITS = { K: 2 ** 10, M: 2 ** 20, G: 2 ** 30 };

// An option that takes a number, 1 to this.
const number = (value, most, otherwise) => ({ value, read: (word) => numberIn(word, most), otherwise });
const text = (value) => ({ value, read: (word) => ({ value: word }), otherwise: undefined });
const decimals = { value: "BITS", read: widthIn, otherwise: 128, widths: true };
const journal = number("N", JOURNAL_LIMIT, 65536);
const keep = number("SIZE", KEEP_LIMIT, 256);
const flag = { otherwise: false };

// Each command: the program's name, how it is used, its options in their order, and its FILE, if it takes any.
const COMMANDS = {
  trac: { name: "trac", usage: "trac <COMMAND>", options: {} },
  run: {
    name: "trac", usage: "trac run [OPTIONS] < FILE", isFixed: true,
    options: { budget: number("N", BUDGET_LIMIT, 1_000_000_000), journal, decimals, memory: text("SIZE") },
  },
  debug: {
    name: "trac", usage: "trac debug [OPTIONS] <FILE>", file: "<FILE>", advice: "trac debug",
    options: { journal, decimals, memory: text("SIZE") },
  },
  walk: {
    name: "trac", usage: "trac walk [OPTIONS] <FILE>", isFixed: true, file: "<FILE>", advice: "trac walk",
    options: { journal, decimals, memory: text("SIZE"), keep, prompt: flag },
  },
  lint: {
    name: "trac", usage: "trac lint [OPTIONS] <FILE>...", isFixed: true, file: "<FILE>...", advice: "trac lint",
    options: {
      input: text("TEXTFILE"), steps: number("N", BUDGET_LIMIT, 10_000_000), keep, decimals, memory: text("SIZE"),
    },
  },
};
// (what every object has is no option)
for (const { options } of Object.values(COMMANDS)) Object.setPrototypeOf(options, null);

// The number of 64 bits that a word says, which may have a plus, or why it says none.
function wholeIn(word) {
  const digits = word.startsWith("+") && word.length > 1 ? word.slice(1) : word;
  if (digits === "") return { why: "cannot parse integer from empty string" };
  let count = 0n;
  for (const digit of digits) {
    if (!/^[0-9]$/.test(digit)) return { why: "invalid digit found in string" };
    count = 10n * count + BigInt(digit);
    if (count >= 2n ** 64n) return { why: "number too large to fit in target type" };
  }
  return { count };
}

function numberIn(word, most) {
  const { count, why } = wholeIn(word);
  if (why) return { why: `: ${why}` };
  return count >= 1n && count <= BigInt(most) ? { value: Number(count) } : { why: `: ${count} is not in 1..=${most}` };
}

function widthIn(word) {
  const width = word.replace(/^\+/, "");
  return width === "64" || width === "128" ? { value: Number(width) } : { why: "\n  [possible values: 64, 128]" };
}

// Whether a word says how much memory a program may take: 1M to 1024G.
function isSize(word) {
  const unit = UNITS[word.slice(-1).toUpperCase()];
  const { count } = wholeIn(unit ? word.slice(0, -1) : word);
  const size = count === undefined ? 0n : count * BigInt(unit ?? 1);
  return size >= 2n ** 20n && size <= 2n ** 40n;
}
