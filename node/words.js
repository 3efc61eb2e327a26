// Command lines, taken and refused as the programs do, word by word.

// A command line that is not understood, and why. Where a word of it is not known, `word` has that.
class Misunderstood extends Error {
  constructor(wrong, { tips = [], usage, word, isAfterDashes = false } = {}) {
    super(wrong);
    Object.assign(this, { wrong, tips, usage, word, isAfterDashes });
  }

  text() {
    const parts = [`error: ${this.wrong}`, this.tips.map((tip) => `  tip: ${tip}`).join("\n"),
      this.usage && `Usage: ${this.usage}`, "For more information, try '--help'."];
    return `${parts.filter((part) => part).join("\n\n")}\n`;
  }
}

// The words of one command.
class Words {
  constructor(command, words) {
    this.command = command;
    this.words = words;
    this.options = {};
    this.files = [];
    // the option whose value comes next, or has come and is not taken yet
    this.pending = null;
    this.isTrailing = false;
  }

  // What the line asks for: `shows` help or the version, or options and files. A word that is no option of `trac`
  // itself is its command, and ends this.
  read() {
    for (this.at = 0; this.at < this.words.length; this.at++) {
      const shows = this.take(this.words[this.at]);
      if (shows) return { shows };
      if (this.subcommand !== undefined) return { subcommand: this.subcommand, rest: this.words.slice(this.at + 1) };
    }
    this.resolve();
    if (this.command.file && this.files.length === 0) throw this.noFile();
    const defaults = Object.entries(this.command.options).map(([name, { otherwise }]) => [name, otherwise]);
    return { options: { ...Object.fromEntries(defaults), ...this.options }, files: this.files };
  }

  take(word) {
    if (!this.isTrailing && word === "--") {
      this.isTrailing = true;
      return undefined;
    }
    if (!this.isTrailing && word.startsWith("--")) return this.long(word);
    if (!this.isTrailing && word.startsWith("-") && word.length > 1) return this.short(word);
    if (!this.isTrailing && this.pending && this.pending.word === undefined) this.pending.word = word;
    else this.plain(word);
    return undefined;
  }

  // A word that is no option: a FILE, or a command of `trac`.
  plain(word) {
    if (this.command === COMMANDS.trac) {
      if (this.isTrailing && COMMANDS_OF_TRAC.includes(word)) {
        const tips = [`subcommand '${word}' exists; to use it, remove the '--' before it`];
        throw this.unknown(word, { tips });
      }
      this.subcommand = word;
      if (this.isTrailing || !COMMANDS_OF_TRAC.includes(word)) throw noCommand(word);
      return;
    }
    const { file } = this.command;
    if (!file || (this.files.length > 0 && !file.endsWith("..."))) throw this.unknown(word, { word });
    this.resolve();
    this.files.push(word);
  }

  long(word) {
    const [, name, value] = /^--([^=]*)(?:=([^]*))?$/.exec(word);
    const option = this.command.options[name];
    if (!option && name !== "help" && name !== "version") throw this.unknownLong(name, word);
    this.resolve();
    if (!option?.value) {
      if (value !== undefined) {
        const wrong = `unexpected value '${value}' for '--${name}' found; no more were expected`;
        throw new Misunderstood(wrong, { usage: this.usage([name]) });
      }
      if (!option) return name;
      this.set(name, true);
    } else if (value !== undefined) this.readValue(name, value);
    else this.pending = { name, word: undefined };
    return undefined;
  }

  short(word) {
    const [sign] = word.slice(1);
    if (sign === "h" || sign === "V") {
      this.resolve();
      return sign === "h" ? "help" : "version";
    }
    throw this.unknown(`-${sign}`, { word, isAfterDashes: this.command.file !== undefined });
  }

  // Takes the value of the option that came last.
  resolve() {
    const { pending } = this;
    this.pending = null;
    if (pending) this.readValue(pending.name, pending.word);
  }

  readValue(name, word) {
    const option = this.command.options[name], widths = option.widths ? "\n  [possible values: 64, 128]" : "";
    if (word === undefined || (option.widths && word === "")) {
      throw new Misunderstood(`a value is required for '--${name} <${option.value}>' but none was supplied${widths}`);
    }
    this.refuseTwice(name);
    const { value, why } = option.read(word);
    if (why) throw new Misunderstood(`invalid value '${word}' for '--${name} <${option.value}>'${why}`);
    this.options[name] = value;
  }

  set(name, value) {
    this.refuseTwice(name);
    this.options[name] = value;
  }

  refuseTwice(name) {
    if (!(name in this.options)) return;
    const wrong = `the argument '${this.named(name)}' cannot be used multiple times`;
    throw new Misunderstood(wrong, { usage: this.usage([]) });
  }

  named(name) {
    const { value } = this.command.options[name] ?? {};
    return value ? `--${name} <${value}>` : `--${name}`;
  }

  // How the command is used, with these of its options.
  usage(names) {
    const { usage, isFixed } = this.command;
    if (names.length === 0 || isFixed) return usage;
    const options = names.filter((name) => name !== "FILE").map((name) => this.named(name));
    return [...usage.split(/ (?=\[OPTIONS\] |<)/)[0].split(" "), ...options, usage.match(/<.*/)[0]].join(" ");
  }

  unknown(word, more) {
    return new Misunderstood(`unexpected argument '${word}' found`, { usage: this.usage([]), ...more });
  }

  unknownLong(name, word) {
    const { tip, option } = similarOption(name, this.command, this.words.slice(this.at + 1));
    const given = Object.keys(this.options);
    // (an option counts whose value has come, whatever that is)
    if (this.pending?.word !== undefined) given.push(this.pending.name);
    const used = [...this.files.slice(0, 1).map(() => "FILE"), ...given, ...(option ? [option] : [])];
    const usage = this.usage([...new Set(used)]);
    const isAfterDashes = !option && this.command.file !== undefined && !this.isTrailing;
    return this.unknown(`--${name}`, { tips: tip ? [tip] : [], usage, word, isAfterDashes });
  }

  noFile() {
    return new Misunderstood(`the following required arguments were not provided:\n  ${this.command.file}`,
      { usage: this.usage(["FILE", ...Object.keys(this.options)]) });
  }
}
