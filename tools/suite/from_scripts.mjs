// Writes the official suite's files from the scripts that SpiderMonkey's tests have of them.
//
//   node tools/suite/from_scripts.mjs FOLDER OUT      writes OUT/NAME.wast for each NAME.wast.js in FOLDER
//
// Debian's source package `firefox-esr` carries these scripts: the suite as it is now, with the proposals that have
// become part of the core specification. A place that lists Debian's sources gives them, 700 MB in all, for example:
//
//   apt-get source --download-only firefox-esr
//   tar xf firefox-esr_*.orig.tar.xz --wildcards '*/js/src/jit-test/tests/wasm/spec/spec/*'
//
// Each script runs here with functions of its own names, which write the forms that they stand for. A null has lost its
// type in a script: as an argument it is one of `externref`.
import { mkdirSync, readFileSync, readdirSync, writeFileSync } from 'fs';
import { basename, join } from 'path';
import vm from 'vm';

// A value as it stands in a form.
class Written {
  constructor(text) { this.text = text; }
  toString() { return this.text; }
}

const isPlain = (byte) => byte >= 0x20 && byte < 0x7F && byte !== 0x22 && byte !== 0x5C;
const letter = (byte) => isPlain(byte) ? String.fromCharCode(byte) : '\\' + byte.toString(16).padStart(2, '0');
const quoted = (text) => '"' + [...Buffer.from(text, 'utf8')].map(letter).join('') + '"';

const NULLS = { externref: 'extern', anyfunc: 'func', funcref: 'func', exnref: 'exn' };
const SHAPES = ['i8x16', 'i16x8', 'i32x4', 'i64x2', 'f32x4', 'f64x2'];
const FLOATS = { f32: { width: 4, fraction: 23n, sign: 31n }, f64: { width: 8, fraction: 52n, sign: 63n } };

// The float of these bytes; of what is no number, the sign and the fraction.
function float(type, bytes) {
  const view = new DataView(Uint8Array.from(bytes).buffer), { width, fraction, sign } = FLOATS[type];
  const number = width === 4 ? view.getFloat32(0, true) : view.getFloat64(0, true);
  if (Number.isNaN(number)) {
    const bits = width === 4 ? BigInt(view.getUint32(0, true)) : view.getBigUint64(0, true);
    return `(${type}.const ${bits >> sign ? '-' : ''}nan:0x${(bits & ((1n << fraction) - 1n)).toString(16)})`;
  }
  const shown = Number.isFinite(number) ? String(number) : 'inf';
  return `(${type}.const ${number < 0 && shown === 'inf' || Object.is(number, -0) ? '-' : ''}${shown})`;
}

function value(type, given) {
  if (given === null) return `(ref.null ${NULLS[type] ?? type})`;
  if (!(type in FLOATS)) return `(${type}.const ${given})`;
  const number = type === 'f32' ? new Float32Array([given]) : new Float64Array([given]);
  return float(type, new Uint8Array(number.buffer));
}

const vector = (shape, items) => `(v128.const ${shape} ${items.join(' ')})`;

// An argument or a result.
function constant(given) {
  if (given === null) return '(ref.null extern)';
  if (typeof given === 'number') return `(i32.const ${given})`;
  if (typeof given === 'bigint') return `(i64.const ${given})`;
  if (given === 'canonical_nan' || given === 'arithmetic_nan') return `(f32.const nan:${given.slice(0, -4)})`;
  return String(given);
}

const constants = (given) => (Array.isArray(given) ? given : [given]).map((one) => ' ' + constant(one)).join('');

// The forms of one script.
class Forms {
  constructor() {
    this.written = [];
    this.modules = 0;
    this.asserted = null; // while an assertion is written: what it is about
  }

  put(form) {
    if (this.asserted === null) this.written.push(form);
    else this.asserted = form;
  }

  // A module under a name of its own, or, where something is asserted of it, under none.
  instantiate(text) {
    const name = this.asserted === null ? `$module_${this.modules++}` : '';
    const found = /^\s*\(module\b(?:\s+\$[^\s()"]+)?([^]*)$/.exec(text);
    this.put(found ? `(module ${name}${found[1]}` : `(module ${name} ${text})`);
    return name;
  }

  assertion(head) {
    return (call, said) => {
      this.asserted = '';
      call();
      const form = this.asserted;
      this.asserted = null;
      const rest = head === 'return' ? constants(said) : head === 'exception' ? '' : ' ' + quoted(said);
      this.put(`(assert_${head} ${form}${rest})`);
    };
  }
}

// What a script calls.
function names(forms) {
  const heads = ['return', 'trap', 'exhaustion', 'invalid', 'malformed', 'unlinkable', 'exception'];
  const numbered = (head) => class extends Written { constructor(number) { super(`(${head} ${number})`); } };
  const pattern = (shape) => class extends Written { constructor(...items) { super(vector(shape, items)); } };
  return {
    ...Object.fromEntries(heads.map((head) => ['assert_' + head, forms.assertion(head)])),
    ...Object.fromEntries(SHAPES.map((shape) => [shape, (items) => new Written(vector(shape, items))])),
    module: (text) => text,
    instantiate: (text) => forms.instantiate(text),
    instantiateFromModule: (text) => forms.instantiate(text),
    register: (name, as) => forms.put(`(register ${quoted(as)} ${name})`),
    invoke: (name, field, given) => forms.put(`(invoke ${name} ${quoted(field)}${constants(given)})`),
    get: (name, field) => forms.put(`(get ${name} ${quoted(field)})`),
    value: (type, given) => new Written(value(type, given)),
    bytes: (type, given) => new Written(type === 'v128' ? vector('i8x16', given) : float(type, given)),
    externref: (number) => new Written(`(ref.extern ${number})`),
    hostref: (number) => new Written(`(ref.host ${number})`),
    either: (...given) => new Written(`(either${constants(given)})`),
    ExternRefResult: numbered('ref.extern'),
    HostRefResult: numbered('ref.host'),
    RefWithType: class extends Written { constructor(type) { super(`(ref.${type.replace(/ref$/, '')})`); } },
    F32x4Pattern: pattern('f32x4'),
    F64x2Pattern: pattern('f64x2'),
  };
}

const [folder, out] = process.argv.slice(2);
mkdirSync(out, { recursive: true });
for (const file of readdirSync(folder).filter((name) => name.endsWith('.wast.js'))) {
  const forms = new Forms();
  vm.runInNewContext(readFileSync(join(folder, file), 'utf8'), names(forms));
  writeFileSync(join(out, basename(file, '.js')), forms.written.join('\n') + '\n');
}
