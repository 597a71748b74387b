// Writes src/sessions/operators.rt: sessions over each operator on integers, and what node's WebAssembly gives of them.
// Run: node operators.js > src/sessions/operators.rt && rt fmt

const TYPES = { i32: 0x7f, i64: 0x7e };
const BINARY = "add sub mul and or xor shl shr_s shr_u rotl rotr".split(" ");
const COMPARISONS = "eq ne lt_s lt_u gt_s gt_u le_s le_u ge_s ge_u".split(" ");
const DIVISIONS = "div_s div_u rem_s rem_u".split(" ");
// The places of the operators behind the first of their type, i32.eqz and i64.eqz, of two groups.
const ORDER = ["eqz", ...COMPARISONS];
const NUMERIC = "clz ctz popcnt add sub mul div_s div_u rem_s rem_u and or xor shl shr_s shr_u rotl rotr".split(" ");
const OTHERS = {
  "i32.wrap_i64": 0xa7, "i64.extend_i32_s": 0xac, "i64.extend_i32_u": 0xad, "i32.extend8_s": 0xc0, "i32.extend16_s": 0xc1,
  "i64.extend8_s": 0xc2, "i64.extend16_s": 0xc3, "i64.extend32_s": 0xc4,
};
const LEAST = { i32: "-2147483648", i64: "-9223372036854775808" };
const MOST = { i32: "2147483647", i64: "9223372036854775807" };
const MIXED = { i32: "-1514880046", i64: "-6506310344268541154" };

function opcode(name) {
  const [type, op] = name.split(".");
  if (name in OTHERS) return OTHERS[name];
  const wide = type === "i64";
  return ORDER.includes(op) ? (wide ? 0x50 : 0x45) + ORDER.indexOf(op) : (wide ? 0x79 : 0x67) + NUMERIC.indexOf(op);
}

function result(name) {
  return ORDER.includes(name.split(".")[1]) ? "i32" : name.slice(0, 3);
}

// A function of one or two parameters of a type that gives, of each operator, its result.
function of(type, count, names) {
  return { params: Array(count).fill(type), names, results: names.map(result) };
}

const list = (type, names) => names.map((name) => `${type}.${name}`);
const one = (type, x) => ({ function: 0, args: [[type, x]] });
const two = (type, pairs, at = 0) => pairs.map((pair) => ({ function: at, args: pair.map((x) => [type, x]) }));

function pairs(type) {
  const bits = type === "i64" ? 64 : 32;
  const [least, most, mixed] = [LEAST[type], MOST[type], MIXED[type]];
  return [
    ["0", "1"], ["-1", "-1"], ["-1", "1"], [least, "-1"], ["-1", least], [least, most], [most, "1"],
    [mixed, `${bits - 1}`], [mixed, `${bits}`], [mixed, `${bits + 1}`],
  ];
}

function divided(type) {
  const [least, most, mixed] = [LEAST[type], MOST[type], MIXED[type]];
  return [
    ["7", "-2"], ["-7", "2"], ["-7", "-2"], ["1", "0"], ["0", "0"], [least, "-1"], [least, "1"], ["1", least],
    [most, least], [mixed, "10"],
  ];
}

const ones = {
  i32: ["0", "1", "-1", LEAST.i32, MOST.i32, "128", "-129", "32768", "-32769", "65536"],
  i64: ["0", "1", "-1", LEAST.i64, MOST.i64, "128", "-129", "32768", "-32769", "2147483648", "-2147483649", "4294967296"],
};

// Each session: its functions, and the calls of them.
const sessions = ["i32", "i64"].flatMap((type) => {
  const other = type === "i32" ? ["i64.extend_i32_s", "i64.extend_i32_u"] : ["i64.extend32_s", "i32.wrap_i64"];
  const unary = [...list(type, ["clz", "ctz", "popcnt", "eqz", "extend8_s", "extend16_s"]), ...other];
  return [
    { functions: [of(type, 2, list(type, [...BINARY, ...COMPARISONS]))], calls: two(type, pairs(type)) },
    {
      functions: DIVISIONS.map((name) => of(type, 2, list(type, [name]))),
      calls: DIVISIONS.flatMap((_, at) => two(type, divided(type), at)),
    },
    { functions: [of(type, 1, unary)], calls: ones[type].map((x) => one(type, x)) },
  ];
});

function code({ params, names }) {
  return names.flatMap((name) => [...params.map((_, at) => ["local.get", at]), [name]]);
}

const isTaken = (name) => name.includes("local");

function module({ functions }) {
  const section = (id, bytes) => [id, ...leb(bytes.length), ...bytes];
  const vector = (items) => [...leb(items.length), ...items.flat()];
  const types = functions.map((f) => [0x60, ...vector(f.params.map((t) => TYPES[t])), ...vector(f.results.map((t) => TYPES[t]))]);
  const exported = functions.map((_, at) => [1, 0x61 + at, 0, at]);
  const bodies = functions.map((f) => {
    const body = [0, ...code(f).flatMap(([name, at]) => (isTaken(name) ? [0x20, at] : [opcode(name)])), 0x0b];
    return [...leb(body.length), ...body];
  });
  const bytes = [
    0, 0x61, 0x73, 0x6d, 1, 0, 0, 0, ...section(1, vector(types)), ...section(3, vector(functions.map((_, at) => [at]))),
    ...section(7, vector(exported)), ...section(10, vector(bodies)),
  ];
  return new WebAssembly.Instance(new WebAssembly.Module(Uint8Array.from(bytes))).exports;
}

function leb(n) {
  return n < 128 ? [n] : [(n & 127) | 128, ...leb(n >> 7)];
}

const letter = (at) => String.fromCharCode(0x61 + at);

function line(exports, { function: at, args }, functions) {
  try {
    const given = exports[letter(at)](...args.map(([type, x]) => (type === "i64" ? BigInt(x) : Number(x))));
    const values = functions[at].results.length === 1 ? [given] : given;
    return ["ok values", ...functions[at].results.map((type, n) => `${type}:${values[n]}`)].join(" ");
  } catch (trap) {
    return /by zero/.test(trap.message) ? "trap IntegerDivisionByZero" : "trap IntegerOverflow";
  }
}

// Items with commas between them, in lines of less than 100 columns.
function wrapped(items) {
  const lines = [""];
  items.forEach((item, at) => {
    const word = item + (at + 1 < items.length ? "," : "");
    const last = lines[lines.length - 1];
    if (last !== "" && last.length + word.length > 99) lines.push(word);
    else lines[lines.length - 1] += word;
  });
  return lines.join("\n");
}

function script({ functions, calls }) {
  const json = (value) => JSON.stringify(value);
  const types = functions.map(({ params, results }) => `{"params":${json(params)},"results":[\n${wrapped(results.map(json))}]}`);
  const bodies = functions.map((f, at) => `{"type":${at},"code":[\n${wrapped(code(f).map(json))}]}`).join(",\n");
  const exported = wrapped(functions.map((_, at) => json({ name: letter(at), func: at })));
  const commands = [
    json({ do: "instantiate", module: 0 }),
    ...functions.map((_, at) => json({ do: "get_export", instance: 0, name: letter(at) })),
    ...calls.map(({ function: at, args }) =>
      `{"do":"call","func":${at + 1},"args":[${args.map(([type, x]) => `{"${type}":${x}}`).join(",")}]}`),
  ];
  return `{"types":[\n${types.join(",\n")}],\n"modules":[{"functions":[\n${bodies}],\n"exports":[\n${exported}]}],\n"commands":[\n${wrapped(commands)}]}`;
}

function lines(session) {
  const exports = module(session);
  const made = ["ok instance 0", ...session.functions.map((_, at) => `ok func ${at}`)];
  return [...made, ...session.calls.map((call) => line(exports, call, session.functions)), ""].join("\n");
}

const rows = sessions.map((session) => `    (\n        r#"${script(session)}"#,\n        "${lines(session)}",\n    ),`);

console.log(`//! The operators on integers in sessions, as node's WebAssembly has them; written by this crate's \`operators.js\`.

use crate::sessions::check_lines;

/// Beside each session stand its lines: of the operators whose result is always there, of divisions, and of those on one
/// operand, for \`i32\` and then for \`i64\`.
const ROWS: [(&str, &str); ${rows.length}] = [
${rows.join("\n")}
];

#[test]
fn operators_give_what_another_engine_gives(rt: HostRuntime) {
    check_lines(&rt, rt.alloc(), &ROWS);
}`);
