// What the page saves: files in use, and what the exports write for them. What is saved belongs to what is shown; if that changes
// meanwhile, nothing is saved.

import { changesOf } from './core/changes.js';
import { shownKey } from './core/store.js';
import { notesOf, sentenceOfFailure } from './core/jobs.js';
import { size } from './core/units.js';
import { wordsOfDrawing, wordsOfPart } from './checks.js';
import { download } from './files.js';

const bytesOfUrl = url => Uint8Array.from(atob(url.split(',')[1]), it => it.charCodeAt(0));
const IN_USE = ['program', 'machine', 'tools'];
const DRAWINGS = ['top', 'front', 'side', 'iso'];

// The end of the file's name, the words of the command, how much longer than the program what it writes may be, and the job, for each
// button.
const outputs = state => {
  const off = state.blockDelete ? ['--delete'] : [];
  return {
    report: ['.report.txt', ['report']],
    every: ['.report.all.txt', ['report', '--all']],
    json: ['.report.json', ['report', '--json']],
    every_json: ['.report.all.json', ['report', '--all', '--json']],
    drawing: [`.${DRAWINGS[state.drawing]}.svg`, wordsOfDrawing(state), 2],
    drawing_bodies: [`.${DRAWINGS[state.drawing]}.bodies.svg`, [...wordsOfDrawing(state), '--bodies'], 4],
    drawing_whole: [`.${DRAWINGS[state.drawing]}.whole.svg`, [...wordsOfDrawing(state), '--whole'], 2],
    part: ['.part.png', wordsOfPart(state)],
    list: ['.list.txt', ['list', ...off], 5],
    certificate: ['.cert', ['certify', '--format=2'], 4],
    certificate_1: ['.1.cert', ['certify', '--format=1'], 8],
    pulses: ['.vcd', ['pulses', ...off], 1, 'pulses'],
    sheet: ['.setup.txt', ['show'], 1, 'sheet'],
    sheet_warnings: ['.warnings.txt', ['show', '--warnings'], 1, 'sheet'],
  };
};

export function makeSaving(store, getJobs, parts, notice) {
  let savedVersion = 0;
  const stem = () => store.state.files.program.name.replace(/\.[^.]*$/, '');

  async function saveOutput(what) {
    const { state } = store, key = shownKey(state), [end, words, factor = 1, job = 'command'] = outputs(state)[what], name = `${stem()}${end}`;
    const changes = changesOf(state);
    try {
      const got = await getJobs().run('save', 'save', job, { words, factor, changes });
      const notes = notesOf(got);
      if (key !== shownKey(store.state)) return notice('What is shown changed in the meantime: nothing was saved. Save again.', 'bad');
      if (!got.output.length) return notice(`There is nothing to save. ${notes}`, 'bad');
      download(name, new Blob([got.output]));
      notice(`Saved as ${name}, ${size(got.output.length)}. ${notes}`.trim());
    } catch (failure) { notice(`Nothing was saved. ${sentenceOfFailure(failure)}`, 'bad'); }
  }
  function saveImage() {
    if (!parts.picture) return notice('There is no picture in three dimensions: save the drawing.', 'bad');
    download(`${stem()}.png`, new Blob([bytesOfUrl(parts.picture.image())]));
  }
  return {
    save(what) {
      const { files } = store.state;
      if (what === 'print') return parts.setupSheet.print();
      if (what === 'picture') return saveImage();
      if (!IN_USE.includes(what)) return saveOutput(what);
      if (what === 'program') savedVersion = files.program.version;
      const { name } = files[what], blob = files[what].blob();
      download(name, blob);
      notice(`Saved as ${name}, ${size(blob.size)}.`);
    },
    get hasUnsavedEdits() { const { program } = store.state.files; return program?.source === 'edited' && program.version !== savedVersion; },
  };
}
