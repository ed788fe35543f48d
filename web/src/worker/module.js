// Calls the exports of the proved module. Each call has an instance of its own, so calls share no state.

const NOTES = 1 << 16;   // bytes of notes that a call keeps at most
const FILES = ['program', 'machine', 'tools', 'certificate'];

export class Missing extends Error {}

// Calls an export with files and options. Returns its status, its output, its notes (what the command writes on standard error), and
// whether the notes were cut. The bytes are a part of the instance's memory, which nothing else uses. If the output is longer than its
// space, the call is made again with enough.
export function call(module, name, files, options = [], space = 1 << 20) {
  const { exports } = new WebAssembly.Instance(module), { memory } = exports;
  if (!exports[name]) throw new Missing(`The module has no export ${name}.`);
  const reserve = length => {
    const at = exports.ngc_space(BigInt(length));
    if (!at) throw new RangeError('there is no space for the files');
    return at;
  };
  const slices = files.flatMap(file => {
    const at = reserve(file.length);
    new Uint8Array(memory.buffer, Number(at), file.length).set(file);
    return [at, BigInt(file.length)];
  });
  const output = reserve(space), notes = reserve(NOTES), lengths = reserve(16);
  const status = exports[name](...slices, ...options, output, BigInt(space), notes, BigInt(NOTES), lengths);
  const [written, told] = new BigUint64Array(memory.buffer, Number(lengths), 2).map(BigInt);
  if (written > space) return call(module, name, files, options, Number(written));
  return {
    status,
    output: new Uint8Array(memory.buffer, Number(output), Number(written)),
    notes: new Uint8Array(memory.buffer, Number(notes), Math.min(Number(told), NOTES)),
    isCut: told >= NOTES,
  };
}

const encoder = new TextEncoder(), decoder = new TextDecoder();
const bytesOf = it => (typeof it === 'string' ? encoder.encode(it) : it);
// Executes a command of `ngc` by the words of its command line. `files` maps the names of its files, as `machine`, to their bytes; the words
// that name them are added here.
export function execute(module, words, files, space) {
  const named = FILES.filter(it => files[it]), line = [...words, ...named.map(it => `--${it}=${it}`)].join('\n');
  return call(module, 'ngc_command', [line, ...FILES.map(it => files[it] ?? '')].map(bytesOf), [], space);
}
// The words of a call and those that a job file adds to them, or its refusal. The notes have the line on what was added.
export function withJob(module, words, { name, bytes }) {
  const got = call(module, 'ngc_job', [[...words, `--job=${name}`].join('\n'), name, bytes].map(bytesOf));
  return { ...got, added: got.status ? [] : textOf(got.output).split('\n').slice(words.length, -1) };
}
export const textOf = bytes => decoder.decode(bytes);

// The fault that a reader should look up: the program's own, where 311 wraps it, as in `ngc: fault 311 setting off fault 102 line 1`. Only
// the line of the fault is read. Other notes name or quote files, and a name or a comment there may have the words `fault 7`.
const FAULT = /^ngc: fault (\d+)(?: setting (?:off|on) fault (\d+))?/gm;
export function faultNumber(notes) {
  const [, outer, inner = outer] = [...notes.matchAll(FAULT)].pop() ?? [];
  return outer === undefined ? null : Number(inner);
}

// What a refused program for another control has: one line with the fault, the line, often a column or a word, and what is wrong.
const REFUSED = /^ngc: (?:fault 311 setting (off|on) )?fault \d+ line (\d+)(?: column (\d+))?: (.*?)(?:, at (\S+))?$/m;
export function refusalOf(notes) {
  const [, setting = null, line, column, words, word = null] = REFUSED.exec(notes) ?? [];
  return words === undefined ? null : { setting, line: Number(line), column: column ? Number(column) : null, words, word };
}

// What a failed job is: its kind and the browser's words.
export function failureOf(fault) {
  const kind = fault instanceof Missing ? 'missing' : fault instanceof WebAssembly.RuntimeError ? 'trap'
    // Firefox throws an InternalError where its own stack ends.
    : fault instanceof RangeError || fault.name === 'InternalError' ? 'memory' : 'other';
  return { kind, text: String(fault.message ?? fault) };
}
