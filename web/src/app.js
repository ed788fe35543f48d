// Puts the page together: the files in use, the jobs that follow from them, and the views of what the jobs return.

import { current, firstState, inputsKey, isRunning, keyOf, makeStore, reduce } from './core/store.js';
import { makeJobs, notesOf, sentenceOfFailure } from './core/jobs.js';
import { numberOf } from './core/controls.js';
import { lackNow } from './core/job.js';
import { keepTheme, keptTheme } from './core/storage.js';
import { momentAt } from './core/motion.js';
import { contactNow, languageNow, partNow, pathNow, sceneNow, stockIn, timesNow, wantsPart } from './core/shown.js';
import { fill, h, id } from './view/dom.js';
import { makeDrawing, makePicture } from './view/picture.js';
import { makeQuestion } from './view/control.js';
import { makeDrop } from './view/drop.js';
import { makeEditor } from './view/editor.js';
import { makeMachine } from './view/machine.js';
import { makePlayer } from './view/player.js';
import { makeReport } from './view/report.js';
import { makeSetupSheet } from './view/setup_sheet.js';
import { makeStrip } from './view/strip.js';
import { makeVerdict } from './view/verdict.js';
import { makeZero } from './view/zero.js';
import { makeChecks } from './checks.js';
import { makeFiles } from './files.js';
import { compiledModule, libraryText, runLibrary } from './packed.js';
import { makeSaving } from './saving.js';
import { NEW_TABLE, hasParts, hasShapes, hasStock, withFixture, withStock, withTool, withoutFixture, withoutStock, withoutTool, wordsOfFigures } from './machine_text.js';

const NOTICE_TIME = 10_000, ACTION_TIME = 30_000; // ms that a notice stays
const PATIENCE = 1500; // ms after which the finished part has a button to stop it
const DRAWING_OF_VIEW = { top: 0, front: 1, right: 2, iso: 3 };
const store = makeStore(reduce, firstState), parts = {};
let jobs = null, checks = null;
const getJobs = () => jobs;

// What went wrong stays until it is dismissed; the rest goes after a while.
function notice(text, kind = '', action = null) {
  store.dispatch({ type: 'notice', notice: { text, kind, action } });
  const { id: mine } = store.state.notices[store.state.notices.length - 1];
  if (kind !== 'bad') setTimeout(() => store.dispatch({ type: 'dismiss', id: mine }), action ? ACTION_TIME : NOTICE_TIME);
}
const files = makeFiles(store, getJobs, notice), saving = makeSaving(store, getJobs, parts, notice);
const set = values => store.dispatch({ type: 'set', values });

// ---- what the views may do

const actions = {
  notice, edited: files.edited, example: files.useExample, exampleMachine: files.useExampleMachine, save: saving.save,
  tab: tab => set({ tab }),
  // Opens a tab and goes to an element of it, which takes the focus only once the tab is shown.
  showIn(tab, element) {
    actions.tab(tab);
    queueMicrotask(() => { element.focus(); element.scrollIntoView({ block: 'center' }); });
  },
  goTo(line, from) { actions.tab('program'); store.dispatch({ type: 'line', line, from }); },
  seek(time) {
    const path = pathNow(store.state), times = timesNow(store.state);
    set({ time, isPlaying: false });
    if (times) store.dispatch({ type: 'line', line: path.lines[momentAt(path, times, time).command], from: 'player', time });
  },
  check() { checks?.check(); },
  stop() { jobs.stop('verdict'); jobs.stop('path'); },
  stopPlace() { jobs.stop('place'); },
  setBlockDelete(blockDelete) { set({ blockDelete, time: null, isPlaying: false }); },
  setOrigins(origins) { set({ origins }); },
  setDemands(demands) { set({ demands }); },
  setCuts(cuts) { set({ cuts }); },
  setControl(control) { store.dispatch({ type: 'control', control }); },
  ask() { set({ isAsking: true }); },
  place() { checks.place(parts.zero.system()); },
  async explain(number) {
    const out = id('explained');
    try { out.textContent = (await jobs.run('side', 'explain', 'explain', { number: Math.min(65_535, Math.max(0, Math.trunc(number) || 0)) })).text; } catch (failure) { notice(sentenceOfFailure(failure), 'bad'); }
  },
  useProgram(program) { if (program) files.use('program', program.name, program.bytes, 'user'); },
  forgetJob: files.forgetJob,
  forgetCertificate() { store.dispatch({ type: 'file', kind: 'certificate', file: null }); },
  addFixture(fixture) { files.changeMachine(text => withFixture(text, fixture), 'The fixture is in the machine file in use.'); },
  removeFixture(number) { files.changeMachine(text => withoutFixture(text, number), 'The fixture is no longer in the machine file in use.'); },
  addTool(tool) {
    const { tools } = store.state.files, text = tools.source === 'example' ? NEW_TABLE : new TextDecoder().decode(tools.bytes);
    if (!hasParts(text) && (tool.parts.length > 1 || tool.name)) return notice('A tool table of version 1 has no holders and no names.', 'bad');
    if (!hasShapes(text) && tool.shape) return notice('Only a tool table of version 3 has shapes of cutters.', 'bad');
    if (tools.source !== 'example' && sceneNow(store.state)?.tools.some(it => it.number === tool.number)) return notice(`Tool ${tool.number} is in the table already: remove it first.`, 'bad');
    files.changeTools(text => withTool(text, tool), `Tool ${tool.number} is in the tool table in use.`);
    id('tool').reset();
  },
  removeTool(number) {
    const at = sceneNow(store.state).tools.findIndex(it => it.number === number);
    files.changeTools(text => withoutTool(text, at), `Tool ${number} is no longer in the tool table in use.`);
  },
  // Opens a form of the tab Machine, with the first fields filled, and goes to the next one.
  describe(name, ...values) {
    const form = id(name), fields = [...form.elements].filter(it => it.matches('input'));
    form.closest('details').open = true;
    values.forEach((value, at) => { fields[at].value = value; });
    actions.showIn('shop', fields[values.length]);
  },
  setStock(stock) {
    if (!hasStock(new TextDecoder().decode(store.state.files.machine.bytes))) return notice('A machine file of version 1 doesn\u2019t describe the material.', 'bad');
    files.changeMachine(text => withStock(text, stock), 'The material is in the machine file in use.');
    id('stock').reset();
  },
  removeStock() { files.changeMachine(withoutStock, 'The material is no longer in the machine file in use.'); },
  makeMachineOfFigures(figures) { files.makeMachineOfFigures(wordsOfFigures(figures), `${figures.travel.map(Math.round).join('x')}.toml`); },
  adapt() {
    id('control').value = String(numberOf(languageNow(store.state) ?? store.state.files.program.sign ?? 'linuxcnc'));
    fill(id('adapt-notes'));
    id('adapt').showModal();
  },
  async rewrite() {
    const { control } = id('adapt-form').elements, { files: { program }, blockDelete } = store.state, out = id('adapt-notes'), lack = lackNow(store.state);
    if (lack) return notice(lack, 'bad');
    try {
      const got = await jobs.run('side', 'adapt', 'output', { name: 'ngc_adapt', options: [Number(control.value), Number(blockDelete)] });
      if (store.state.files.program !== program) return;
      fill(out, h('pre', { tabindex: '0' }, notesOf(got) || 'Nothing is left out or means otherwise.'));
      if (!got.output.length) return;
      const name = `${program.name.replace(/\.[^.]*$/, '')}.rewritten.ngc`;
      files.use('program', name, got.output, 'made');
      notice(`${name} is in use.`, '', { label: 'Back to the original', act: async () => files.use('program', program.name, new Uint8Array(await program.blob().arrayBuffer()), program.source, program.isOwn) });
    } catch (failure) { fill(out, h('p', { class: 'bad' }, sentenceOfFailure(failure))); }
  },
};

// ---- controls that belong to no view

function watchTabs() {
  const tabs = [...document.querySelectorAll('[data-tab]')];
  tabs.forEach((tab, at) => {
    tab.onclick = () => actions.tab(tab.dataset.tab);
    tab.onkeydown = event => {
      const step = { ArrowRight: 1, ArrowLeft: -1 }[event.key];
      if (!step) return;
      const to = tabs[(at + step + tabs.length) % tabs.length];
      event.preventDefault();
      actions.tab(to.dataset.tab);
      to.focus();
    };
  });
  store.watch(state => [state.tab], shown => {
    for (const tab of tabs) {
      const isOn = tab.dataset.tab === shown;
      tab.setAttribute('aria-selected', String(isOn));
      tab.tabIndex = isOn ? 0 : -1;
      id(`tab-${tab.dataset.tab}`).hidden = !isOn;
    }
  });
}
function watchMenu() {
  const menu = id('save-menu');
  for (const button of document.querySelectorAll('[data-save]')) button.onclick = () => { menu.open = false; menu.querySelector('summary').focus(); actions.save(button.dataset.save); };
  document.addEventListener('click', event => { if (!event.target.closest('#save-menu')) menu.open = false; });
  document.addEventListener('keydown', event => {
    if (event.key === 'Escape' && menu.open) { menu.open = false; menu.querySelector('summary').focus(); }
    if ((event.ctrlKey || event.metaKey) && event.key.toLowerCase() === 's') { event.preventDefault(); actions.save('program'); }
    if (event.key === ' ' && (event.target === document.body || event.target === id('canvas'))) { event.preventDefault(); id('play').click(); }
  });
}
function shade() {
  const { theme } = store.state, isDark = theme === 'dark' || (theme === 'auto' && matchMedia('(prefers-color-scheme: dark)').matches);
  document.documentElement.dataset.shade = isDark ? 'dark' : 'light';
  parts.picture?.themeChanged();
}
// A browser may put back what a control showed at an earlier visit, so each control is set from the state.
function watchChoices() {
  const unit = id('unit'), theme = id('theme'), colour = id('colour'), rapids = id('rapids'), part = id('part'), example = id('example');
  unit.onclick = () => set({ unit: store.state.unit === 'mm' ? 'in' : 'mm' });
  theme.onclick = () => { const next = { auto: 'dark', dark: 'light', light: 'auto' }[store.state.theme]; set({ theme: next }); keepTheme(next); };
  colour.onchange = () => set({ colour: colour.value });
  rapids.onchange = () => set({ hasRapids: rapids.checked });
  part.onchange = () => set({ hasPart: part.checked });
  id('part-stop').onclick = () => { set({ hasPart: false }); part.focus(); };
  example.onchange = () => { const { value } = example; example.value = ''; if (value) actions.example(value); };
  example.value = '';
  id('views').addEventListener('click', event => { const view = event.target.closest('[data-view]')?.dataset.view; if (view) set({ drawing: DRAWING_OF_VIEW[view] }); });
  store.watch(state => [state.unit], shown => {
    unit.textContent = shown;
    unit.setAttribute('aria-label', shown === 'mm' ? 'Lengths in millimetres: show inches' : 'Lengths in inches: show millimetres');
    for (const it of document.querySelectorAll('.unit-name')) it.textContent = shown;
  });
  store.watch(state => [state.theme], shown => {
    theme.textContent = { auto: '\u25d0', dark: '\u25cf', light: '\u25cb' }[shown];
    theme.setAttribute('aria-label', `Colours: ${{ auto: 'as the system', dark: 'dark', light: 'light' }[shown]}`);
    shade();
  });
  store.watch(state => [state.colour, state.hasRapids, state.hasPart], (shown, hasRapids, hasPart) => { colour.value = shown; rapids.checked = hasRapids; part.checked = hasPart; });
  // Only a block of material has a finished part. While the machine file is read again the switch stays, so that it keeps the focus.
  store.watch(state => [current(state, 'scene')], value => { if (value) for (const it of [id('part-choice'), document.querySelector('[data-save=part]')]) it.hidden = !value.scene?.stock; });
  let timer = null;
  store.watch(state => [wantsPart(state) && isRunning(state, 'part')], isMade => {
    clearTimeout(timer);
    if (isMade) timer = setTimeout(() => { id('part-stop').hidden = false; }, PATIENCE); else id('part-stop').hidden = true;
  });
  matchMedia('(prefers-color-scheme: dark)').addEventListener('change', shade);
}
function watchRest() {
  id('adapt-open').onclick = actions.adapt;
  id('adapt-form').onsubmit = event => { event.preventDefault(); actions.rewrite(); };
  id('adapt-close').onclick = () => id('adapt').close();
  // A program that is pasted outside of a field.
  document.addEventListener('paste', event => {
    const text = event.clipboardData?.getData('text/plain') ?? '';
    if (event.target.closest?.('input, textarea, #editor') || !text.trim()) return;
    event.preventDefault();
    files.take({ files: [new File([text], 'pasted.ngc')], folders: 0, unread: [], isCut: false });
  });
  window.addEventListener('beforeunload', event => { if (saving.hasUnsavedEdits) event.preventDefault(); });
}

// ---- the start

function showUnable(fault) {
  id('verdict').className = 'bad';
  id('verdict-title').textContent = "This browser can't run the page: it has no 64-bit WebAssembly memory.";
  id('verdict-detail').textContent = `Chromium 133 or later and Firefox 134 or later have it. (${fault.message})`;
}
function makeViews() {
  parts.editor = makeEditor(store, actions);
  makeVerdict(store, actions, parts.editor);
  makeQuestion(store, actions);
  makeStrip(store, actions);
  makeReport(store, actions);
  parts.zero = makeZero(store, actions);
  makeMachine(store, actions);
  makePlayer(store, actions);
  watchTabs();
  watchMenu();
  watchChoices();
  watchRest();
  makeDrop(files.take);
}
// Starts three.js. Returns whether it runs; if it doesn't, a notice says why.
async function hasLibrary(unpacking) {
  try { runLibrary(await unpacking); return true; } catch (fault) {
    notice(`There is no picture in three dimensions, since three.js can't be used. (${fault.message})`, 'bad');
    return false;
  }
}
// The picture comes after the first verdict, since starting three.js and WebGL takes a while.
async function makePictures(unpacking) {
  parts.picture = await hasLibrary(unpacking) ? makePicture(store) : null;
  if (!parts.picture) { makeDrawing(store); checks.followDrawing(); }
  parts.setupSheet = makeSetupSheet(store, parts.picture);
}
function firstVerdict() {
  return new Promise(resolve => store.watch(state => [state.slots.report.status], status => { if (status === 'done' || status === 'failed') requestAnimationFrame(() => setTimeout(resolve, 0)); }));
}

async function start() {
  const compiling = compiledModule(), unpacking = libraryText();
  // The browser would complain of a failure that nothing waits for yet. `hasLibrary` waits for it after the first verdict.
  unpacking.catch(() => {});
  set({ theme: keptTheme() });
  makeViews();
  let module = null;
  try { module = await compiling; } catch (fault) { return showUnable(fault); }
  jobs = makeJobs(URL.createObjectURL(new Blob([id('worker').textContent], { type: 'text/javascript' })), module, () => store.state.files);
  checks = makeChecks(store, jobs);
  files.start();
  checks.follow();
  await firstVerdict();
  await makePictures(unpacking);
}

// For the browser's console and the tests.
window.ngc = { store, actions, parts, files, saving, current, keyOf, inputsKey, contactNow, partNow, pathNow, sceneNow, stockIn, timesNow, get jobs() { return jobs; } };
start().finally(() => { document.documentElement.dataset.ready = 'true'; });
