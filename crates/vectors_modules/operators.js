// Writes src/tests/operator_rows.rt: what this engine's WebAssembly gives of each operator on integers.
// Run: node operators.js > src/tests/operator_rows.rt && rt fmt

const COUNTS = ["1f", "20", "21", "3f", "40", "41"];
const OPERANDS = {
  i32: ["0", "1", "ffffffff", "80000000", "7fffffff", "a5b4c3d2", ...COUNTS],
  i64: ["0", "1", "ffffffffffffffff", "8000000000000000", "7fffffffffffffff", "a5b4c3d2e1f00f1e", ...COUNTS],
};
const CODES = { i32: 0x7f, i64: 0x7e };
const ARITHMETIC = "add sub mul div_s div_u rem_s rem_u".split(" ");
const BITS = "and or xor shl shr_s shr_u rotl rotr".split(" ");
const COMPARISONS = "eq ne lt_s lt_u gt_s gt_u le_s le_u ge_s ge_u".split(" ");

// Tables of operators, each with the first opcode. Each operator: name, opcode, the types of its operands and its result.
function binary() {
  const table = (type, title, names, code, result) => ({
    title: `${type.toUpperCase()}_${title}`,
    operators: names.map((name, at) => ({ name: `${type}.${name}`, code: code + at, operands: [type, type], result })),
  });
  return [
    table("i32", "ARITHMETIC", ARITHMETIC, 0x6a, "i32"), table("i32", "BITS", BITS, 0x71, "i32"),
    table("i32", "COMPARISONS", COMPARISONS, 0x46, "i32"),
    table("i64", "ARITHMETIC", ARITHMETIC, 0x7c, "i64"), table("i64", "BITS", BITS, 0x83, "i64"),
    table("i64", "COMPARISONS", COMPARISONS, 0x51, "i32"),
  ];
}

function unary() {
  const one = (name, code, operand, result) => ({ name, code, operands: [operand], result });
  return [
    one("i32.clz", 0x67, "i32", "i32"), one("i32.ctz", 0x68, "i32", "i32"), one("i32.popcnt", 0x69, "i32", "i32"),
    one("i32.eqz", 0x45, "i32", "i32"), one("i32.extend8_s", 0xc0, "i32", "i32"),
    one("i32.extend16_s", 0xc1, "i32", "i32"),
    one("i64.extend_i32_s", 0xac, "i32", "i64"), one("i64.extend_i32_u", 0xad, "i32", "i64"),
    one("i64.clz", 0x79, "i64", "i64"), one("i64.ctz", 0x7a, "i64", "i64"), one("i64.popcnt", 0x7b, "i64", "i64"),
    one("i64.eqz", 0x50, "i64", "i32"), one("i64.extend8_s", 0xc2, "i64", "i64"),
    one("i64.extend16_s", 0xc3, "i64", "i64"), one("i64.extend32_s", 0xc4, "i64", "i64"),
    one("i32.wrap_i64", 0xa7, "i64", "i32"),
  ];
}

// A module that exports the operator as the function `f`.
function assemble({ code, operands, result }) {
  const section = (id, bytes) => [id, bytes.length, ...bytes];
  const type = [1, 0x60, operands.length, ...operands.map((t) => CODES[t]), 1, CODES[result]];
  const body = [0, ...operands.flatMap((_, at) => [0x20, at]), code, 0x0b];
  const bytes = [
    0, 0x61, 0x73, 0x6d, 1, 0, 0, 0, ...section(1, type), ...section(3, [1, 0]),
    ...section(7, [1, 1, 0x66, 0, 0]), ...section(10, [1, body.length, ...body]),
  ];
  return new WebAssembly.Instance(new WebAssembly.Module(Uint8Array.from(bytes))).exports.f;
}

function argument(type, digits) {
  const bits = BigInt("0x" + digits);
  return type === "i64" ? BigInt.asIntN(64, bits) : Number(BigInt.asIntN(32, bits));
}

// The result in hexadecimal digits, or the trap.
function answer(f, { operands, result }, digits) {
  try {
    const value = BigInt(f(...digits.map((d, at) => argument(operands[at], d))));
    return BigInt.asUintN(result === "i64" ? 64 : 32, value).toString(16);
  } catch (trap) {
    return /by zero/.test(trap.message) ? "by-zero" : "overflow";
  }
}

// `i32.lt_s` as `I32LtS`.
const camel = (name) => name.split(/[._]/).map((word) => word[0].toUpperCase() + word.slice(1)).join("");

// What stands in for the operands: all of the type, or pairs of one of the first six with each of all.
function tuples({ operands: [type, second] }) {
  const all = OPERANDS[type];
  return second === undefined ? all.map((x) => [x]) : all.slice(0, 6).flatMap((x) => all.map((y) => [x, y]));
}

// Words in lines of less than 100 columns; the first line begins in column 10.
function wrapped(words) {
  const lines = [" ".repeat(9)];
  for (const word of words) {
    const line = lines[lines.length - 1];
    if (line.length + 1 + word.length > 99) lines.push(word);
    else lines[lines.length - 1] = line.trim() === "" ? line + word : `${line} ${word}`;
  }
  return lines.join("\n").trim();
}

function rows(name, kind, operators) {
  const texts = operators.map((operator) => {
    const f = assemble(operator);
    const text = wrapped(tuples(operator).map((digits) => answer(f, operator, digits)));
    return `    (\n        ${kind}::${camel(operator.name)},\n        "${text}",\n    ),`;
  });
  return `pub(crate) const ${name}: [(${kind}, &str); ${operators.length}] = [\n${texts.join("\n")}\n];`;
}

function operands(type) {
  const numbers = OPERANDS[type].map((digits) => `    0x${digits},`).join("\n");
  const name = `${type.toUpperCase()}_OPERANDS`;
  const comment = `/// The operands of type \`${type}\`.`;
  return `${comment}\npub(crate) const ${name}: [u64; 12] = [\n${numbers}\n];`;
}

console.log(`//! The operators on integers as node's WebAssembly has them, written by this crate's \`operators.js\`.
//!
//! Beside each operator stand its results in hexadecimal digits, or its traps: of two operands the first is one of the
//! first six of its type, and the second each of the twelve in turn; one operand is each of the twelve.

use wasm_syntax::{BinOp, UnOp};

${operands("i32")}

${operands("i64")}

// The operators of two operands, in tables of a few rows: the proof of a function grows faster than the table in it.

${binary().map(({ title, operators }) => rows(title, "BinOp", operators)).join("\n\n")}

/// The operators of one operand.
${rows("UNARY_ROWS", "UnOp", unary())}`);
