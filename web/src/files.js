// The files in use: from drops, choices, examples and edits.

import { NO_DEMANDS, changesOf } from './core/changes.js';
import { optionFor, signOf } from './core/controls.js';
import { ProgramText, startsOf } from './core/program_text.js';
import { notesOf, sentenceOfFailure } from './core/jobs.js';
import { isNamed, lackNow, namesIn } from './core/job.js';
import { kindOf } from './core/sort_files.js';
import { keepControl, keepDemands, keepFile, keptControl, keptDemands, keptFile } from './core/storage.js';
import { current } from './core/store.js';
import { size } from './core/units.js';
import { EXAMPLE_MACHINE, exampleBytes } from './examples.js';
import { NEW_TABLE } from './machine_text.js';

const LARGEST = 200_000_000;   // bytes of a file that is read at all
const SHORT = 200_000;         // bytes of a program whose lines are found at once
const HEAD = 65_536;           // bytes of a program that are searched for signs of its control
const MOST_CHECKED = 50;       // programs of one drop that get a verdict
const OTHERWISE = 'The file is written in another form: change it in an editor.';
const NAMES = { job: 'job files', machine: 'machine files', tools: 'tool tables', certificate: 'certificates', grbl: 'lists of GRBL settings' };

export function makeFiles(store, getJobs, notice) {
  let versions = 0, drops = 0, batches = 0;

  // A file with a version of its own. Its blob has the same bytes in memory, so a file that changes on the disk changes nothing here.
  function fileOf(name, bytes, source) {
    const blob = new Blob([bytes]), version = ++versions;
    return { name, source, version, base: version, size: bytes.length, bytes, blob: () => blob };
  }
  // An example and what is made here are in our own language, whatever the control.
  function use(kind, name, bytes, source, isOwn = source === 'example' || source === 'made') {
    const file = fileOf(name, bytes, source);
    if (kind === 'program') Object.assign(file, { isOwn, sign: signOf(new TextDecoder('latin1').decode(bytes.subarray(0, HEAD))) });
    // Of a long program the worker finds where the lines start.
    const text = kind === 'program' && bytes.length < SHORT ? ProgramText.of(bytes, file.blob(), startsOf(bytes)) : null;
    // A later drop of another file wins over the name in the job file.
    const { job } = store.state.files, named = job?.names[kind];
    if (named && !isNamed(job, kind, file)) {
      forgetJob();
      notice(`${job.name} is no longer in use: it names ${named}, and ${name} is in use now.`);
    }
    store.dispatch({ type: 'file', kind, file, text });
    return file;
  }
  const forgetJob = () => store.dispatch({ type: 'file', kind: 'job', file: null });
  // Puts a file back that was in use before.
  const putBack = (kind, file) => store.dispatch({ type: 'file', kind, file: { ...file, version: ++versions } });

  function edited(text, line) {
    const { program } = store.state.files;
    let blob = null;
    store.dispatch({ type: 'edited', text, line, file: { ...program, source: 'edited', version: ++versions, blob: () => (blob ??= text.blob()) } });
  }

  // ---- what is dropped or chosen

  async function read(files, isLatest) {
    const found = { program: [], machine: [], tools: [], job: [], certificate: [], grbl: [], unknown: [] };
    for (const file of files) {
      if (file.size > LARGEST) { notice(`${file.name} has ${size(file.size)}; the largest file that is read has ${size(LARGEST)}.`, 'bad'); continue; }
      let bytes = null;
      try { bytes = new Uint8Array(await file.arrayBuffer()); } catch { notice(`${file.name} could not be read.`, 'bad'); continue; }
      if (!isLatest()) return null;
      found[kindOf(bytes, file.name)].push({ name: file.name, bytes });
    }
    return found;
  }
  // Takes any files, sorted by their content. A later drop wins: an earlier one that is still being read is given up.
  async function take(given) {
    const mine = ++drops, isLatest = () => mine === drops, { files, folders, unread, isCut } = await given;
    if (!isLatest()) return;
    for (const name of unread) notice(`This browser can't read the folder ${name}: drop the files in it.`, 'bad');
    if (isCut) notice(`Only the first ${files.length} files were read.`, 'bad');
    if (!files.length) { if (!unread.length) notice(folders ? 'There are no files in this folder.' : 'Nothing was dropped that can be read.', 'bad'); return; }
    const found = await read(files, isLatest);
    if (!found || !await takeJob(found, isLatest)) return;
    for (const [kind, name] of Object.entries(NAMES)) {
      const [first, ...others] = found[kind];
      if (others.length) notice(`Of ${found[kind].length} ${name} ${first.name} is in use, not ${others.map(it => it.name).join(', ')}.`);
    }
    if (found.unknown.length) notice(`${found.unknown.map(it => it.name).join(', ')}: not a program, a machine file, a tool table or a certificate.`, 'bad');
    for (const kind of ['machine', 'tools']) if (found[kind].length) use(kind, found[kind][0].name, found[kind][0].bytes, 'user');
    const lack = found.job.length ? lackNow(store.state) : null;
    if (lack) notice(lack, 'bad');
    if (found.program.length) takePrograms(found.program);
    if (found.certificate.length) useCertificate(found.certificate[0]);
    if (found.grbl.length) makeMachine([found.grbl[0].bytes], found.grbl[0].name, isLatest);
  }
  // Takes a job file, and puts the files that it names first in their lists, whatever else they look like. Returns whether the drop is still the
  // latest.
  async function takeJob(found, isLatest) {
    const [first] = found.job;
    if (!first) return true;
    const name = /[\r\n]/.test(first.name) ? 'ngc.toml' : first.name;
    let said = null;
    try { said = await getJobs().run('side', 'job', 'job', { name, bytes: first.bytes }); } catch (failure) { notice(`${name} isn't in use. ${sentenceOfFailure(failure)}`, 'bad'); return isLatest(); }
    if (!isLatest()) return false;
    const names = namesIn(said.added);
    for (const [kind, wanted] of Object.entries(names)) {
      const from = wanted && Object.values(found).find(list => list.some(it => it.name === wanted));
      if (wanted && !from) {
        if (found[kind].length) notice(`${found[kind].map(it => it.name).join(', ')}: not in use, since ${name} names ${wanted}.`, 'bad');
        found[kind] = [];
      }
      if (!from) continue;
      const [file] = from.splice(from.findIndex(it => it.name === wanted), 1);
      found[kind].unshift(file);
    }
    store.dispatch({ type: 'file', kind: 'job', file: { ...fileOf(name, first.bytes, 'user'), names } });
    if (!said.status) notice(said.note || `${name} is in use, and adds nothing.`);
    return true;
  }
  function takePrograms(programs) {
    store.dispatch({ type: 'set', values: { programs: programs.length > 1 ? programs.map(it => ({ ...it, blob: new Blob([it.bytes]) })) : [] } });
    use('program', programs[0].name, programs[0].bytes, 'user');
    if (programs.length > 1) { notice(`${programs.length} programs: choose one beside its name.`); checkPrograms(); }
    if (store.state.tab === 'shop') store.dispatch({ type: 'set', values: { tab: 'program' } });
  }
  const useCertificate = ({ name, bytes }) => store.dispatch({ type: 'file', kind: 'certificate', file: fileOf(name, bytes, 'user') });

  // The verdicts of the programs that were dropped together, for the list beside the name.
  async function checkPrograms() {
    const mine = ++batches, mark = (name, bytes, verdict) => store.dispatch({ type: 'set', values: { programs: store.state.programs.map(it => (it.bytes === bytes && it.name === name ? { ...it, verdict } : it)) } });
    // A verdict for another machine is older than the files in use.
    store.dispatch({ type: 'set', values: { programs: store.state.programs.map(it => ({ ...it, verdict: undefined })) } });
    // More cuts were asked for one program. The one in use may be rewritten; those that were dropped are for the control.
    const changes = { ...changesOf({ ...store.state, cuts: null }), dialect: optionFor(store.state.control) };
    for (const { name, bytes, blob } of store.state.programs.slice(0, MOST_CHECKED)) {
      let verdict = 'failed';
      try { verdict = (await getJobs().run('batch', 'batch', 'fits', { program: blob, changes })).fits ? 'fits' : 'refused'; } catch { /* It has no verdict. */ }
      if (mine !== batches) return;
      mark(name, bytes, verdict);
    }
  }

  // ---- machine files that are made here

  // Makes a machine file of a dump of GRBL's settings. Nothing is used if a later drop came first.
  const makeMachine = (given, from, isLatest) => useMachineMade('output', { name: 'ngc_machine', given }, from, `${from.replace(/\.[^.]*$/, '')}.toml`, isLatest);
  const makeMachineOfFigures = (words, name) => useMachineMade('command', { words, given: {} }, 'these figures', name);
  async function useMachineMade(job, options, from, name, isLatest = () => true) {
    try {
      const made = await getJobs().run('side', 'machine', job, options);
      const notes = notesOf(made);
      if (!isLatest()) return;
      if (made.status || !made.output.length) return notice(`No machine file was made of ${from}. ${notes}`, 'bad');
      const file = use('machine', name, made.output, 'made');
      notice(`${name} is in use. ${notes}`, '', { label: 'Save it', act: () => download(file.name, file.blob()) });
      store.dispatch({ type: 'set', values: { tab: 'shop' } });
    } catch (failure) { notice(`No machine file was made of ${from}. ${sentenceOfFailure(failure)}`, 'bad'); }
  }
  // Takes another text of the same machine, and keeps its control and the zeros, margins and cuts of this check.
  function keepingChanges(act) {
    const { origins, demands, cuts, control } = store.state;
    act();
    store.dispatch({ type: 'set', values: { origins, demands, cuts, control } });
  }
  // A table with the user's first tool has none of the example's.
  function changeTools(change, sentence) {
    const { tools } = store.state.files, isExample = tools.source === 'example', text = isExample ? NEW_TABLE : new TextDecoder().decode(tools.bytes), changed = change(text);
    if (changed === text) return notice(OTHERWISE, 'bad');
    use('tools', isExample ? 'my_tools.toml' : tools.name, new TextEncoder().encode(changed), 'made');
    notice(isExample ? `${sentence} The tools of the example are no longer in use.` : sentence, '', { label: 'Undo', act: () => putBack('tools', tools) });
  }
  function changeMachine(change, sentence) {
    const { machine } = store.state.files, text = new TextDecoder().decode(machine.bytes), changed = change(text);
    if (changed === text) return notice(OTHERWISE, 'bad');
    keepingChanges(() => use('machine', machine.name, new TextEncoder().encode(changed), 'made'));
    notice(sentence, '', { label: 'Undo', act: () => keepingChanges(() => putBack('machine', machine)) });
  }

  // ---- examples, and what is kept for the next visit

  // An example is as its file says: without the zeros, the margins and the control that were chosen before.
  function useExampleMachine() {
    forgetJob();
    store.dispatch({ type: 'set', values: { origins: {}, demands: NO_DEMANDS, cuts: null, control: null } });
    for (const [kind, name] of Object.entries(EXAMPLE_MACHINE)) {
      const file = store.state.files[kind];
      if (file?.source !== 'example') use(kind, name, exampleBytes(name), 'example');
    }
  }
  function useExample(name) {
    const isMine = Object.keys(EXAMPLE_MACHINE).some(kind => store.state.files[kind] && store.state.files[kind].source !== 'example');
    store.dispatch({ type: 'set', values: { programs: [] } });
    use('program', name, exampleBytes(name), 'example');
    // An example never takes the place of the user's machine or tools.
    if (isMine) notice(`${name} is written for the example machine. Your machine and tools are still in use.`, '', { label: 'Use the example machine', act: useExampleMachine });
    else useExampleMachine();
  }
  function start() {
    for (const [kind, name] of Object.entries(EXAMPLE_MACHINE)) {
      const kept = keptFile(kind);
      kept ? use(kind, kept.name, kept.bytes, 'kept') : use(kind, name, exampleBytes(name), 'example');
    }
    if (store.state.files.machine.source === 'kept') store.dispatch({ type: 'set', values: { demands: keptDemands(), control: keptControl() } });
    use('program', 'slot.ngc', exampleBytes('slot.ngc'), 'example');
    // Only files that the checker reads are kept, and no examples.
    store.watch(state => [current(state, 'scene'), state.files.machine, state.files.tools, state.demands, state.control], (scene, machine, tools, demands, control) => {
      if (scene?.status !== 0) return;
      if (machine.source !== 'example') { keepDemands(demands); keepControl(control); }
      for (const [kind, file] of Object.entries({ machine, tools })) if (file.source !== 'example') keepFile(kind, file.name, file.bytes);
    });
    // All dropped programs are checked again on another machine, for another control, and with other zeros and margins.
    store.watch(state => [state.files.machine, state.files.tools, state.files.job, state.origins, state.demands, state.control], () => { if (store.state.programs.length) checkPrograms(); });
  }
  return { use, putBack, forgetJob, edited, take, makeMachine, makeMachineOfFigures, changeMachine, changeTools, useExample, useExampleMachine, start };
}

export function download(name, blob) {
  const link = document.createElement('a');
  link.href = URL.createObjectURL(blob);
  link.download = name;
  link.click();
  setTimeout(() => URL.revokeObjectURL(link.href), 60_000);
}
