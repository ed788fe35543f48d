// Files from anywhere: dropped on the page, or chosen.

import { id } from './dom.js';

const MOST = 200, DEEPEST = 3;   // files, and folders in folders

class Reading {
  constructor() { Object.assign(this, { files: [], folders: 0, unread: [], isCut: false }); }
  add(file) { if (this.files.length < MOST) this.files.push(file); else this.isCut = true; }
  // The files of a folder. In Chromium a page from disk can't read a folder's entries, but it can read its handle; Firefox has entries only.
  async handle(folder, depth = 0) {
    for await (const it of folder.values()) {
      if (it.kind === 'file') this.add(await it.getFile());
      else if (depth < DEEPEST) await this.handle(it, depth + 1);
      else this.unread.push(it.name);
    }
  }
  async entry(folder, depth = 0) {
    const reader = folder.createReader();
    for (;;) {
      const some = await new Promise((resolve, reject) => reader.readEntries(resolve, reject));
      if (!some.length) return;
      for (const it of some) {
        if (it.isFile) this.add(await new Promise((resolve, reject) => it.file(resolve, reject)));
        else if (depth < DEEPEST) await this.entry(it, depth + 1);
        else this.unread.push(it.name);
      }
    }
  }
}

// What was dropped. Whatever is asked of a drop must be asked before its event ends.
async function filesOf(transfer) {
  const items = [...transfer.items].filter(it => it.kind === 'file').map(it => {
    const entry = it.webkitGetAsEntry?.();
    return { file: it.getAsFile(), entry, handle: entry?.isDirectory ? it.getAsFileSystemHandle?.() : null };
  });
  const reading = new Reading();
  for (const { file, entry, handle } of items) {
    if (!entry?.isDirectory) { if (file) reading.add(file); continue; }
    reading.folders++;
    try { await (handle ? reading.handle(await handle) : reading.entry(entry)); } catch { reading.unread.push(entry.name); }
  }
  return reading;
}

// Calls `take` with what is dropped or chosen, at once, so that a later drop is known to be later.
export function makeDrop(take) {
  const cover = id('drop'), chooser = id('choose');
  let depth = 0;
  const enter = by => { depth = Math.max(0, depth + by); cover.hidden = depth === 0; };
  const listen = (name, act) => window.addEventListener(name, event => {
    if (![...(event.dataTransfer?.types ?? [])].includes('Files')) return;
    event.preventDefault();
    act(event);
  });
  listen('dragenter', () => enter(1));
  listen('dragleave', () => enter(-1));
  listen('dragover', event => { event.dataTransfer.dropEffect = 'copy'; });
  listen('drop', event => { enter(-depth); take(filesOf(event.dataTransfer)); });
  id('open').onclick = () => { chooser.value = ''; chooser.click(); };
  chooser.onchange = () => take({ files: [...chooser.files], folders: 0, unread: [], isCut: false });
}
