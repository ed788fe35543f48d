// The worker: each message is a job, and each job calls a function below. Its state is the module and the latest version of each file that
// it was sent.

import { call, execute, failureOf, faultNumber, refusalOf, textOf, withJob } from './module.js';
import { buffersOf, readListing } from './listing.js';
import { readSheet } from './sheet.js';
import { lineStarts, search } from './lines.js';
import { optionsOf } from '../core/changes.js';
import { dialectOf } from '../core/controls.js';
import { addJob, valuesOf } from '../core/job.js';
import { AXES } from '../core/systems.js';

const MOST_FACTS = 2000;       // facts of a report that the page shows at most
const USAGE = 2;               // the status of words that are refused
const files = {};
let module = null;

const IN_USE = ['program', 'machine', 'tools'];
// `ngc list` has no margins, since they change nothing that it prints, and only these commands have cuts.
const CUTTING = ['report', 'certify', 'place'];
const withOptions = (words, changes) => [...words, ...optionsOf(words[0] === 'list' ? { origins: changes.origins, dialect: changes.dialect } : CUTTING.includes(words[0]) ? changes : { ...changes, cuts: null })];
// What a call comes to that isn't begun: lines of standard error alone.
const unbegun = (status, notes) => ({ status, output: new Uint8Array(0), notes, isCut: false, added: [] });
// What the job file in use adds to a command with its options: its words, or why nothing is executed. A file that it names is one of the page's.
function addedTo(line, { job = null, lack = null }) {
  if (lack) return unbegun(1, new TextEncoder().encode(lack));
  return job ? withJob(module, line, { name: job, bytes: files.job }) : { status: 0, notes: new Uint8Array(0), added: [] };
}
const isOfFile = word => /^--(machine|tools)=/.test(word);
// Executes a command on the files in use with what replaces keys of the machine file. `others` are files in their place, or more files.
function command(words, changes, { others = {}, factor = 1 } = {}) {
  const line = withOptions(words, changes), call = addedTo(line, changes);
  if (call.status) return unbegun(call.status, call.notes);
  return { ...execute(module, [...line, ...call.added.filter(it => !isOfFile(it))], { ...files, ...others }, spaceFor(factor)), added: call.added };
}
const spaceFor = factor => (files.program?.length ?? 0) * factor + (1 << 20);
const PART = /^(?=Fault \d+ \()/m, OF_OTHERS = /^Fault \d+ \(Programs for other controls\)/;
// What `ngc explain` prints. For a program in a dialect the part about these programs comes first.
function explanationOf(fault, dialect) {
  const text = fault === null ? '' : textOf(call(module, 'ngc_explain', [], [fault]).output), parts = text.split(PART);
  return dialect ? [...parts.filter(it => OF_OTHERS.test(it)), ...parts.filter(it => !OF_OTHERS.test(it))].join('') : text;
}

// Reads the first facts of a report. The document has one object a line.
function factsOf(bytes) {
  const facts = [];
  let from = 0;
  while (facts.length < MOST_FACTS && from < bytes.length) {
    let to = bytes.indexOf(10, from);
    if (to < 0) to = bytes.length;
    const line = textOf(bytes.subarray(from, to)).replace(/^\[/, '').replace(/,$/, '').trim();
    if (line && line !== ']') facts.push(JSON.parse(line));
    from = to + 1;
  }
  return { facts, isCut: bytes.length - from > 3 };
}

// The machine and the tools as the files say, with what the job file adds and the zeros of this check. `note` is the line on the job file.
function sceneOf(changes) {
  const { lack = null, origins } = changes, { machine, tools } = files, shown = lack ? unbegun(1, null) : execute(module, ['show'], { machine, tools }), sheet = lack ?? textOf(shown.output);
  const job = addedTo(withOptions(['report'], changes), changes), note = lack ? '' : textOf(job.notes).trim();
  if (shown.status) return { status: shown.status, sheet, scene: null, note };
  return { status: 0, sheet, scene: addJob(readSheet(sheet), job.added, origins), note };
}
// The language in which a command read its program, or null for our own: that of its option, that of the job file, or that of the machine file.
function languageOf({ dialect = null }, added) {
  const [name = null] = dialect ? [dialect] : valuesOf(added, 'dialect'), { machine, tools } = files;
  return name ? dialectOf(name) : readSheet(textOf(execute(module, ['show'], { machine, tools }).output)).dialect;
}
// The facts of `ngc place` as the interval of each axis, or null where none was found.
function placeOf(facts) {
  const of = name => facts.filter(it => it.fact === name), interval = it => (it?.fits ? { from: it.from, to: it.to } : null);
  const [origin] = of('origin'), [here] = of('here'), along = AXES.map(axis => of('along').find(it => it.axis === axis));
  return { fitsHere: here?.fits ?? false, at: origin?.at ?? [0, 0, 0], along: along.map(interval), isKnown: along.map(it => it?.moves ?? false), staying: Math.max(0, ...along.map(it => it?.staying ?? 0)) };
}
const saved = got => {
  const output = got.output.slice(), notes = got.notes.slice();
  return [{ status: got.status, output, notes, text: textOf(notes), isCut: got.isCut }, [output.buffer, notes.buffer]];
};

// A line of a report's text, as `warning: NAME: 3, the first in line 7: what to do.` A warning of another form is taken as a whole.
function remarkOf(line) {
  const [, kind, rest] = /^(warning|note)(?: \(\w+\))?: (.*?)\.?$/.exec(line), [, remark = null] = /: \d+, the first in line \d+(?:: (.*))?$/.exec(rest) ?? [rest];
  return { kind, remark, whole: / the first in line \d+/.test(rest) ? null : rest };
}

// Each job returns its value, and the buffers that are handed over with it.
const JOBS = {
  // Calls an export with files and options, and returns what it writes. A file is bytes, or the kind of one that is in use.
  output({ name, given = IN_USE, options = [], factor = 1 }) { return saved(call(module, name, given.map(it => files[it] ?? it), options, spaceFor(factor))); },
  // Executes a command on the files in use, or on those of `given`, and returns what it writes.
  command({ words, changes = {}, given = null, factor = 1 }) {
    return saved(given ? execute(module, withOptions(words, changes), given, spaceFor(factor)) : command(words, changes, { factor }));
  },
  // The pulses of a run need a certificate that is accepted.
  pulses({ words, changes }) {
    const made = command(['certify', '--format=2'], changes, { factor: 4 });
    return made.status ? [{ status: made.status, output: new Uint8Array(0), text: textOf(made.notes), isCut: made.isCut }]
      : saved(command(words, changes, { others: { certificate: made.output.slice() }, factor: 8 }));
  },
  report({ changes, all }) {
    const got = command(['report', '--json', ...(all ? ['--all'] : [])], changes), errors = textOf(got.notes), fault = faultNumber(errors);
    // Words that are refused are the job file's: the page writes none that are.
    const isOfJob = changes.job && (got.status === USAGE || /^ngc: fault \d+ job$/m.test(errors)), refusedFile = isOfJob ? 'job' : /^ngc: fault \d+ (machine|tools)/m.exec(errors)?.[1] ?? null;
    const sentence = isOfJob ? errors : refusedFile ? textOf(command(['report'], changes).output) : '';
    const { facts, isCut } = factsOf(got.output);
    const dialect = languageOf(changes, got.added), { lack = null } = changes, numbers = all ? [...new Set(facts.filter(it => it.fact === 'fault_in').map(it => it.number))] : [];
    const meanings = Object.fromEntries(numbers.map(it => [it, explanationOf(it, dialect)]));
    return [{ status: got.status, facts, isCut, errors, fault, explanation: explanationOf(fault, dialect), meanings, refusedFile, sentence, lack, dialect, refusal: dialect ? refusalOf(errors) : null }];
  },
  // What the text of a report adds to the warnings and notes of its JSON, in their order, for each setting of block delete.
  remarks({ changes }) {
    const found = { null: [], off: [], on: [] };
    let setting = null;
    for (const line of textOf(command(['report'], changes).output).split('\n')) {
      setting = /^With block delete (off|on):$/.exec(line)?.[1] ?? setting;
      if (/^(warning: |note \()/.test(line)) found[setting].push(remarkOf(line));
    }
    return [found];
  },
  scene({ changes }) { return [sceneOf(changes)]; },
  sheet({ words, changes }) {
    const { machine, tools } = files, call = addedTo(words, changes);
    return saved(call.status ? unbegun(call.status, call.notes) : execute(module, words, { machine, tools }));
  },
  // The words that a job file adds to a report, and the line that says so, or why it is refused.
  job({ name, bytes }) {
    const { status, notes, added } = withJob(module, ['report'], { name, bytes });
    return [{ status, note: textOf(notes).trim(), added }];
  },
  path({ changes, blockDelete }) {
    const { status, scene } = sceneOf(changes);
    if (status) return [{ status, path: null }];
    const got = command(['list', ...(blockDelete ? ['--delete'] : [])], changes, { factor: 5 });
    if (got.status) return [{ status: got.status, path: null }];
    const path = readListing(got.output, scene);
    return [{ status: 0, path }, buffersOf(path)];
  },
  // The map of what the program leaves of the block of material: the file, and what a browser makes of it. Without a map there is no image.
  async part({ words, changes }) {
    const [value, buffers] = saved(command(words, changes)), fault = faultNumber(value.text);
    if (!value.output.length) return [{ ...value, fault, image: null }, buffers];
    const image = await createImageBitmap(new Blob([value.output], { type: 'image/png' }));
    return [{ ...value, fault, image }, [...buffers, image]];
  },
  index() {
    const starts = lineStarts(files.program);
    return [{ starts }, [starts.buffer]];
  },
  search({ query }) {
    const found = search(files.program, query);
    return [found, [found.lines.buffer]];
  },
  place({ changes, system }) {
    const got = command(['place', '--json', `--system=${system.slice(1)}`], changes), fault = faultNumber(textOf(got.notes));
    return [{ ...placeOf(factsOf(got.output).facts), system, status: got.status, explanation: explanationOf(fault, languageOf(changes, got.added)) }];
  },
  // Whether a program that isn't in use fits the machine and the tools in use.
  async fits({ program, changes }) {
    const bytes = new Uint8Array(await program.arrayBuffer());
    return [{ fits: command(['report'], changes, { others: { program: bytes } }).status === 0 }];
  },
  explain({ number }) {
    const got = call(module, 'ngc_explain', [], [number]);
    return [{ text: textOf(got.output) || textOf(got.notes) }];
  },
  certificate({ changes, bytes }) {
    const got = command(['check'], changes, { others: { certificate: bytes } }), fault = faultNumber(textOf(got.notes));
    return [{ isAccepted: got.status === 0, fault, explanation: explanationOf(fault, languageOf(changes, got.added)) }];
  },
};

async function work({ module: given, file, blob, id, name, options }) {
  if (given) module = given;
  else if (file) files[file] = blob && new Uint8Array(await blob.arrayBuffer());
  else {
    try {
      const [value, buffers = []] = await JOBS[name](options);
      self.postMessage({ id, value }, buffers);
    } catch (fault) {
      self.postMessage({ id, failure: failureOf(fault) });
    }
  }
}
// One message after the other, since reading a file takes a while.
let before = Promise.resolve();
self.onmessage = ({ data }) => { before = before.then(() => work(data)); };
