// What is said of mistakes that are often made.

const COMMANDS_OF_TRAC = ["run", "debug", "help"];
const RUN_TIP = "to run the program in FILE, put < before its name: trac run < FILE";
const COMMAND_TIPS = {
  __proto__: null,
  walk: "to walk through the program in FILE at a terminal: trac walk FILE",
  page: "to make a page that runs the program in FILE: trac page FILE > run.html",
  version: "the version is shown by: trac --version",
};
const BUDGET_TIP = "--budget is an option of trac run; here the commands say how far to go";
const NO_COMMAND = "'trac' requires a subcommand but one was not provided\n  [subcommands: run, debug, help]";
const NOT_TEXT = `error: invalid UTF-8 was detected in one or more arguments

  tip: have the shell open such a file: trac run < FILE, trac debug /dev/fd/3 3< FILE,
       trac walk /dev/fd/3 3< FILE, or trac lint /dev/fd/3 3< FILE
`;

// How similar two words are, by Jaro: 0 to 1.
function similarity(one, other) {
  if (one === "" || other === "") return one === other ? 1 : 0;
  const range = Math.max(Math.floor(Math.max(one.length, other.length) / 2) - 1, 0);
  const taken = Array(other.length).fill(false), signs = [];
  for (let at = 0; at < one.length; at++) {
    for (let to = Math.max(0, at - range); to < Math.min(at + range + 1, other.length); to++) {
      if (!taken[to] && one[at] === other[to]) {
        taken[to] = true;
        signs.push(one[at]);
        break;
      }
    }
  }
  if (signs.length === 0) return 0;
  const met = [...other].filter((_, to) => taken[to]);
  const moved = Math.floor(signs.filter((sign, at) => sign !== met[at]).length / 2), count = signs.length;
  return (count / one.length + count / other.length + (count - moved) / count) / 3;
}

// The words that are similar to one, the most similar last.
function similar(word, others) {
  const rated = others.map((it) => [similarity(word, it), it]).filter(([rate]) => rate > 0.7);
  return rated.sort(([one], [other]) => one - other).map(([, it]) => it);
}

const longsOf = (command) => [...Object.keys(command.options), "help", "version"];

// The tip for an option that is not known, and the option of this command that it names, if it does.
function similarOption(name, command, rest) {
  const option = similar(name, longsOf(command)).pop();
  if (option) return { option, tip: `a similar argument exists: '--${option}'` };
  if (command !== COMMANDS.trac) return {};
  const named = ["run", "debug"].filter((it) => rest.includes(it));
  const found = named.map((it) => [it, similar(name, longsOf(COMMANDS[it])).pop()]);
  const [first] = found.filter(([, it]) => it).sort(([one], [other]) => rest.indexOf(one) - rest.indexOf(other));
  return first ? { tip: `'${first[0]} --${first[1]}' exists` } : {};
}

// A word that is no command of `trac`.
function noCommand(word, usage = COMMANDS.trac.usage, isHelp = false) {
  const names = isHelp ? [] : similar(word, COMMANDS_OF_TRAC);
  const own = COMMAND_TIPS[word.replace(/^trac-(?=walk$|page$)/, "")] ?? RUN_TIP;
  const quoted = names.map((it) => `'${it}'`).join(", ");
  const exist = names.length > 1 ? "some similar subcommands exist" : "a similar subcommand exists";
  const said = names.length > 0 ? [`${exist}: ${quoted}`] : [];
  const tips = /[./]/.test(word) ? [own, ...said] : [...said, own];
  return new Misunderstood(`unrecognized subcommand '${word}'`, { tips, usage });
}

// The tip of the programs for a word that they do not know, in the place of all others or after them.
function advise(fault, command) {
  const { word } = fault;
  if (word === undefined) return;
  const isOption = word.startsWith("-") && word !== "-";
  if (command === COMMANDS.run && !isOption) fault.tips.push(RUN_TIP);
  if (!command.advice) return;
  if (word === "--budget" || word.startsWith("--budget=")) fault.tips = [BUDGET_TIP];
  else if (fault.isAfterDashes) {
    fault.tips = [`a FILE whose name begins with - is written so: ${command.advice} ./${word}`];
  }
}

// The words of a command, or why they are not understood: then they stand there as they are shown.
function wordsOf(command, words) {
  try {
    return checked(new Words(command, words).read());
  } catch (fault) {
    if (!(fault instanceof Misunderstood)) throw fault;
  }
  try {
    checked(new Words(command, words.map(shown)).read());
    return { bad: "error: the command line is not understood\n" };
  } catch (fault) {
    if (!(fault instanceof Misunderstood)) throw fault;
    advise(fault, command);
    return { bad: fault.text() };
  }
}

// What words ask for, if the memory that they allow is one.
function checked(line) {
  const size = line.options?.memory;
  if (size === undefined || isSize(size)) return line;
  throw new Misunderstood(`invalid value '${shown(size)}' for '--memory <SIZE>': it is not in 1M..=1024G`);
}
