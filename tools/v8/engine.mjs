// Runs sessions in V8, for the comparison with V8 (compare.py): each line of standard input is a session with its modules in the binary format,
// {"session": .., "binaries": [digits], "probe": reply}, and each line of standard output the list of its lines. It
// knows the commands that tools/random_sessions.py writes. Where an indirect call failed, V8 does not say whether of a
// null: the code writes that into a global before, which the reply `probe` gives. An object is numbered as in the store
// of the program: modules here export all that they define, by kind and index.
import { createInterface } from "node:readline";

const JS_NAMES = { funcref: "anyfunc" }; // what JavaScript calls a type otherwise
const NO_REPLY = { line: "refused NoReply" };
const LETTERS = { func: "f", table: "t", memory: "m", global: "g" };
const PARTS = { func: "functions", table: "tables", memory: "memories", global: "globals" };
const TRAPS = [
  [/^unreachable$/, "UnreachableCodeReached"],
  [/memory access out of bounds|data segment/, "MemoryOutOfBounds"],
  [/table index is out of bounds|table access|element segment|table initializer/, "TableOutOfBounds"],
  [/divide by zero|remainder by zero/, "IntegerDivisionByZero"],
  [/divide result unrepresentable/, "IntegerOverflow"],
  [/Maximum call stack size exceeded/, "StackOverflow"],
];

class Host {
  constructor({ session, binaries, probe }) {
    this.session = session;
    this.modules = binaries.map((digits) => new WebAssembly.Module(Buffer.from(digits, "hex")));
    this.probe = probe;
    this.replies = [];
    this.counts = { func: 0, table: 0, memory: 0, global: 0, instance: 0 };
    this.numbers = new Map(); // of each object that a session can reach
  }

  run() {
    for (const command of this.session.commands) {
      this.replies.push(this.reply(command));
    }
    return this.replies.map((reply) => reply.line);
  }

  reply(command) {
    try {
      return this[command.do](command);
    } catch (error) {
      return { line: this.failure(error) };
    }
  }

  failure(error) {
    if (error === NO_REPLY) {
      return NO_REPLY.line;
    }
    if (error instanceof WebAssembly.LinkError) {
      return "refused ImportType " + /import #?(\d+)/i.exec(error.message)[1];
    }
    if (/null function or function signature/.test(error.message)) {
      const isNull = this.replies[this.probe].object.value;
      return "trap " + (isNull ? "IndirectCallToNull" : "BadSignature");
    }
    const known = TRAPS.find(([message]) => message.test(error.message));
    return known ? "trap " + known[1] : "V8: " + error.name + ": " + error.message;
  }

  object(name, kind) {
    const reply = this.replies[name];
    if (reply === undefined || reply.kind !== kind) {
      throw NO_REPLY;
    }
    return reply.object;
  }

  // A new object of the host.
  made(kind, object) {
    const number = this.counts[kind]++;
    this.numbers.set(object, number);
    return { line: `ok ${kind} ${number}`, kind, object };
  }

  shown(value, type) {
    if (type === "funcref" || type === "externref") {
      const number = type === "funcref" && value !== null ? this.numbers.get(value) : value;
      return `${type}:${number}`;
    }
    return `${type}:${value}`;
  }

  values(values, types) {
    return { line: ["ok values", ...types.map((type, n) => this.shown(values[n], type))].join(" ") };
  }

  operand(operand) {
    const [[kind, value]] = Object.entries(operand);
    if (kind === "name") {
      return this.object(value, "func");
    }
    if (kind === "i64") {
      return BigInt.asIntN(64, BigInt(value));
    }
    return value === null ? null : kind === "i32" ? value | 0 : value;
  }

  memory_new({ min, max }) {
    return this.made("memory", new WebAssembly.Memory({ initial: min, maximum: max }));
  }

  memory_read({ memory, at, len }) {
    const bytes = Buffer.from(this.object(memory, "memory").buffer);
    if (at + len > bytes.length) {
      return { line: "refused MemoryAccessError" };
    }
    return { line: ("ok bytes " + bytes.toString("hex", at, at + len)).trimEnd() };
  }

  memory_write({ memory, at, bytes }) {
    const held = Buffer.from(this.object(memory, "memory").buffer);
    if (at + bytes.length / 2 > held.length) {
      return { line: "refused MemoryAccessError" };
    }
    held.write(bytes, at, "hex");
    return { line: "ok" };
  }

  memory_size({ memory }) {
    return { line: "ok " + this.object(memory, "memory").buffer.byteLength / 65536 };
  }

  memory_grow({ memory, delta }) {
    return this.grown(() => this.object(memory, "memory").grow(delta));
  }

  grown(grow) {
    try {
      return { line: "ok " + grow() };
    } catch (error) {
      return error instanceof RangeError ? { line: "refused GrowFailed" } : { line: this.failure(error) };
    }
  }

  table_new({ ref, min, max, init }) {
    const limits = { element: JS_NAMES[ref] ?? ref, initial: min, maximum: max };
    return { ...this.made("table", new WebAssembly.Table(limits, this.operand(init))), type: ref };
  }

  table_get({ table, at }) {
    const elements = this.object(table, "table");
    return at < elements.length ? this.values([elements.get(at)], [this.replies[table].type]) : { line: "ok none" };
  }

  table_set({ table, at, value }) {
    const elements = this.object(table, "table");
    const element = this.operand(value);
    if (at >= elements.length) {
      return { line: "trap TableOutOfBounds" };
    }
    elements.set(at, element);
    return { line: "ok" };
  }

  table_size({ table }) {
    return { line: "ok " + this.object(table, "table").length };
  }

  table_grow({ table, delta, value }) {
    return this.grown(() => this.object(table, "table").grow(delta, this.operand(value)));
  }

  global_new({ val, mut, init }) {
    const global = new WebAssembly.Global({ value: JS_NAMES[val] ?? val, mutable: mut === true }, this.operand(init));
    return { ...this.made("global", global), type: val };
  }

  global_get({ global }) {
    return this.values([this.object(global, "global").value], [this.replies[global].type]);
  }

  global_set({ global, value }) {
    this.object(global, "global").value = this.operand(value);
    return { line: "ok" };
  }

  instantiate({ module, imports }) {
    const declaration = this.session.modules[module];
    const given = {};
    for (const [n, entry] of declaration.imports.entries()) {
      if (this.replies[imports[n]]?.object === undefined) {
        throw NO_REPLY;
      }
      given[entry.module] = { ...given[entry.module], [entry.name]: this.replies[imports[n]].object };
    }
    let instance;
    try {
      instance = new WebAssembly.Instance(this.modules[module], given);
    } catch (error) {
      if (!(error instanceof WebAssembly.LinkError)) {
        this.count(declaration, {});
      }
      return { line: this.failure(error) };
    }
    this.count(declaration, instance.exports);
    return { line: "ok instance " + (this.counts.instance - 1), kind: "instance", object: instance, declaration };
  }

  // Numbers what an instance defines. Of one whose making ended in a trap V8 gives no exports: then its functions are
  // those without a number that are found elsewhere, by the index which is the name of each.
  count(declaration, exports) {
    this.counts.instance++;
    for (const kind of Object.keys(PARTS)) {
      const imported = declaration.imports.filter((entry) => kind in entry).length;
      const first = this.counts[kind] - imported;
      const defined = (declaration[PARTS[kind]] ?? []).length;
      this.counts[kind] += defined;
      for (let n = imported; n < imported + defined && LETTERS[kind] + n in exports; n++) {
        this.numbers.set(exports[LETTERS[kind] + n], first + n);
      }
      if (kind === "func") {
        this.findFunctions(first);
      }
    }
  }

  findFunctions(first) {
    for (const { kind, object } of this.replies.filter((reply) => reply.type === "funcref")) {
      const held = kind === "global" ? [object.value] : Array.from({ length: object.length }, (_, n) => object.get(n));
      for (const found of held.filter((each) => each !== null && !this.numbers.has(each))) {
        this.numbers.set(found, first + Number(found.name));
      }
    }
  }

  get_export({ instance, name }) {
    const { exports } = this.object(instance, "instance");
    const { declaration } = this.replies[instance];
    const entry = declaration.exports.find((each) => each.name === name);
    const kind = Object.keys(LETTERS).find((each) => each in entry);
    const object = exports[name];
    const type = this.typeOf(declaration, kind, entry[kind]);
    return { line: `ok ${kind} ${this.numbers.get(object)}`, kind, object, type };
  }

  // The value type of a global, the reference type of a table, the type of a function.
  typeOf(declaration, kind, index) {
    const imported = declaration.imports.filter((entry) => kind in entry).map((entry) => entry[kind]);
    const item = index < imported.length ? imported[index] : declaration[PARTS[kind]][index - imported.length];
    return kind === "func" ? this.session.types[item.type ?? item] : item.val ?? item.ref;
  }

  call({ func, args }) {
    const called = this.object(func, "func");
    const results = called(...args.map((operand) => this.operand(operand)));
    const types = this.replies[func].type.results;
    return this.values(types.length === 1 ? [results] : results, types);
  }
}

for await (const line of createInterface({ input: process.stdin })) {
  let lines;
  try {
    const exact = line.replace(/"i64": (-?\d+)/g, '"i64": "$1"'); // a number of JavaScript has 53 bits
    lines = new Host(JSON.parse(exact)).run();
  } catch (error) {
    lines = ["V8: " + error.name + ": " + error.message];
  }
  process.stdout.write(JSON.stringify(lines) + "\n");
}
