// The jobs that follow from the files in use. What a job returns is dropped if the files in use are others by then.

import { ProgramText } from './core/program_text.js';
import { changesOf } from './core/changes.js';
import { current, inputsKey, keyOf } from './core/store.js';
import { groupsNow, wantsPart } from './core/shown.js';

const PAUSE = 180;   // ms without typing before a check
const VIEWS = ['top', 'front', 'side', 'iso'];
const LINE_QUERY = /^\s*(?:line|l|:)\s*\d/i;

const settingOf = ({ blockDelete }) => (blockDelete ? ['--delete'] : []);
export const wordsOfDrawing = state => ['draw', `--view=${VIEWS[state.drawing]}`, ...settingOf(state)];
export const wordsOfPart = state => ['draw', '--map', ...settingOf(state)];

export function makeChecks(store, jobs) {
  let typing = null;

  async function begin(slot, lane, name, options) {
    const key = keyOf[slot](store.state);
    store.dispatch({ type: 'begun', slot, key });
    try { store.dispatch({ type: 'result', slot, key, value: await jobs.run(lane, slot, name, options) }); } catch (failure) { store.dispatch({ type: 'result', slot, key, failure }); }
  }
  const inputs = () => ({ changes: changesOf(store.state) });
  const beginPath = () => begin('path', 'path', 'path', { ...inputs(), blockDelete: store.state.blockDelete });
  function check() {
    begin('report', 'verdict', 'report', { ...inputs(), all: false });
    beginPath();
  }
  function drawPlain() {
    begin('drawing', 'path', 'command', { ...inputs(), words: wordsOfDrawing(store.state), factor: 2 });
  }

  // Makes the finished part, unless it is there. One that is no longer wanted is ended, so that it takes no time from what is.
  function followPart(isWanted) {
    if (isWanted && current(store.state, 'part')) return;
    if (jobs.isBusy('part')) jobs.stop('part');
    if (isWanted) begin('part', 'part', 'part', { ...inputs(), words: wordsOfPart(store.state) });
  }

  function follow() {
    store.watch(state => [keyOf.scene(state)], () => begin('scene', 'side', 'scene', inputs()));
    store.watch(state => [inputsKey(state)], key => {
      // What is on the screen is out of date from the first key stroke on; the check itself waits for a pause.
      for (const slot of ['report', 'path']) store.dispatch({ type: 'begun', slot, key: keyOf[slot](store.state) });
      clearTimeout(typing);
      typing = setTimeout(() => { if (inputsKey(store.state) === key) check(); }, store.state.files.program.source === 'edited' ? PAUSE : 0);
    });
    let shown = store.state.blockDelete;
    store.watch(state => [state.blockDelete], blockDelete => {
      if (blockDelete !== shown && store.state.slots.path.key.startsWith(inputsKey(store.state))) beginPath();
      shown = blockDelete;
    });
    // It comes after the verdict, since it takes as long as a report. A file that is refused has a verdict and leaves nothing.
    store.watch(state => [wantsPart(state) && Boolean(current(state, 'report')), keyOf.part(state)], followPart);
    store.watch(state => [keyOf.search(state)], () => { const { query } = store.state; if (query && !LINE_QUERY.test(query)) begin('search', 'side', 'search', { query }); });
    store.watch(state => [state.files.certificate, inputsKey(state)], certificate => { if (certificate) begin('certificate', 'side', 'certificate', { ...inputs(), bytes: certificate.bytes }); });
    store.watch(state => [keyOf.index(state), state.text === null], (_, isMissing) => { if (isMissing) begin('index', 'index', 'index', {}); });
    store.watch(state => [current(state, 'index')], found => {
      const { program } = store.state.files;
      if (found && !store.state.text) store.dispatch({ type: 'set', values: { text: ProgramText.of(program.bytes, program.blob(), found.starts) } });
    });
    // What warnings and notes say in full. A lane of its own, since it takes as long as the report.
    store.watch(state => [current(state, 'report')], report => {
      if (report && groupsNow(store.state).some(it => it.warnings.length || it.notes.length)) begin('remarks', 'remarks', 'remarks', inputs());
    });
    // Every place in the way, and the other setting of block delete, once the first verdict is there. Of a refused program for another
    // control the report says only the first fault.
    store.watch(state => [current(state, 'report')], report => {
      if (report && !report.refusedFile && !report.refusal && groupsNow(store.state).some(it => !it.fits)) begin('every', 'side', 'report', { ...inputs(), all: true });
    });
  }
  return {
    begin, check, follow,
    followDrawing() { store.watch(state => [keyOf.drawing(state)], drawPlain); },
    place(system) { begin('place', 'place', 'place', { ...inputs(), system }); },
  };
}
