// The programs.

const AT_TERMINAL = "trac: reading from the terminal: ' and Enter end a text, Ctrl-D ends the input\n";
const WELCOME = "h lists the commands, q ends\n";
const BAD_WORDS = 2, BROKEN_OFF = 70;

// What the module cannot give as the programs do, and why.
function refusalOf(name, { memory, keep }) {
  const program = ["walk", "lint"].includes(name) ? `trac ${name}` : "trac";
  if (memory !== undefined) return `${program}: --memory is refused: trac.mjs has 512 MiB, counted otherwise\n`;
  if (name === "lint" && keep !== 256) return "trac lint: --keep is refused: trac.mjs keeps 256 MiB\n";
  return undefined;
}

class Programs {
  constructor(engine, texts, streams) {
    Object.assign(this, { engine, texts, streams });
  }

  // Does what a command line asks for; returns the status.
  async obey(words) {
    const isNot = words.some((word) => word.includes("\ufffd"));
    try {
      return isNot ? this.bad(NOT_TEXT) : await this.obeyWords(words);
    } catch (fault) {
      const { status, line } = fault instanceof End ? fault : new End(BROKEN_OFF, `trac: broken off: ${fault.message}`);
      if (line) this.streams.tell(`${line}\n`);
      return status;
    }
  }

  async obeyWords(words) {
    if (words[0] === "walk" || words[0] === "lint") return this.perform(words[0], words.slice(1));
    if (words.length === 0 || (words.length === 1 && words[0] === "--")) {
      return this.bad(new Misunderstood(NO_COMMAND, { usage: COMMANDS.trac.usage }).text());
    }
    const line = wordsOf(COMMANDS.trac, words);
    if (line.bad) return this.bad(line.bad);
    if (line.shows) return this.show("trac", line.shows);
    return line.subcommand === "help" ? this.help(line.rest) : this.perform(line.subcommand, line.rest);
  }

  bad(text) {
    this.streams.tell(text);
    return BAD_WORDS;
  }

  // Shows help, or the version.
  show(name, what) {
    const text = what === "version" ? `${COMMANDS[name]?.name ?? "trac"} ${this.texts.version}\n` : this.texts[name];
    try {
      this.streams.write(Buffer.from(text));
    } catch (fault) {
      if (name !== "lint") throw fault;
      throw new End(FAILED, "trac lint: the output cannot be written");
    }
    return 0;
  }

  help([first, ...rest]) {
    if (first === undefined) return this.show("trac", "help");
    const name = COMMANDS_OF_TRAC.includes(first) ? first : undefined;
    const [word] = name ? rest : [first];
    if (word === undefined) return this.show(name, "help");
    const usage = name === "help" ? "trac help [COMMAND]..." : COMMANDS[name ?? "trac"].usage;
    return this.bad(noCommand(shown(word), usage, true).text());
  }

  async perform(name, words) {
    const line = wordsOf(COMMANDS[name], words);
    if (line.bad) return this.bad(line.bad);
    if (line.shows) return this.show(name, line.shows);
    const refusal = refusalOf(name, line.options);
    if (refusal) return this.bad(refusal);
    if (name === "lint") return new Linter(this.engine, line.options, this.streams).all(line.files);
    await this.streams.feed(this.answerer(name, line));
    return 0;
  }

  // What answers standard input.
  answerer(name, { options, files: [file] }) {
    const { engine, streams } = this;
    if (name === "run") {
      if (streams.isTerminal) streams.tell(AT_TERMINAL);
      return new Run(engine, options, streams);
    }
    if (name === "debug") return new Session(engine, programIn(file), options, streams);
    const program = this.programToWalk(file);
    if (streams.isTerminal) streams.tell(WELCOME);
    return new Walk(engine, program, { ...options, prompt: options.prompt || streams.isTerminal }, streams);
  }

  programToWalk(file) {
    try {
      return programIn(file);
    } catch (fault) {
      if (fault.status === NOT_READ) this.streams.tell(`trac walk: ${shown(file)} cannot be read\n`);
      throw fault;
    }
  }
}

const engine = new Engine(MODULE);

// The programs over these streams: tests have others than the standard ones.
export function programs(streams) {
  return new Programs(engine, TEXTS, streams);
}

// Whether this file was called, and not imported. (Node may be told to leave links as they are.)
const [, called] = process.argv;
if (called && fs.realpathSync(called) === fs.realpathSync(fileURLToPath(import.meta.url))) {
  process.exit(await programs(new Streams()).obey(process.argv.slice(2)));
}
