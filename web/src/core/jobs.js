// Runs jobs in workers. A lane is a worker of its own, so a long check doesn't hold up the path, a search or an explanation. The jobs of a
// lane run in order. A job is named by its slot: a new job of a slot takes the place of the waiting one. If the old one is running, it ends
// the worker, since a call of the module can't be interrupted.

const PATIENCE = 60;  // ms that an outdated job may still take before its worker is ended
const KINDS = ['program', 'machine', 'tools', 'job'];

export function makeJobs(source, firstModule, filesNow) {
  const lanes = new Map();
  let module = firstModule, ids = 0;

  function start(lane) {
    lane.worker = new Worker(source);
    lane.sent = {};
    lane.worker.postMessage({ module });
    lane.worker.onmessage = ({ data }) => {
      if (lane.running?.id !== data.id) return;
      const { resolve, reject } = lane.running;
      lane.running = null;
      data.failure ? reject(data.failure) : resolve(data.value);
      next(lane);
    };
    lane.worker.onerror = event => {
      event.preventDefault?.();
      const job = lane.running;
      end(lane);
      job?.reject({ kind: 'other', text: event.message || 'The worker could not be started.' });
      next(lane);
    };
  }
  function end(lane) {
    lane.worker?.terminate();
    lane.worker = lane.running = null;
  }
  function next(lane) {
    if (lane.running || !lane.waiting.length) return;
    if (!lane.worker) start(lane);
    const job = lane.running = lane.waiting.shift(), files = filesNow();
    for (const kind of KINDS) {
      const version = files[kind]?.version;
      if (lane.sent[kind] === version) continue;
      lane.sent[kind] = version;
      // A blob goes as a reference, so nothing is copied here.
      lane.worker.postMessage({ file: kind, blob: files[kind]?.blob() ?? null });
    }
    lane.worker.postMessage({ id: job.id, name: job.name, options: job.options });
  }
  function laneOf(name) {
    if (!lanes.has(name)) lanes.set(name, { waiting: [], running: null, worker: null, sent: {} });
    return lanes.get(name);
  }

  return {
    // Runs a job, and returns a promise of its value. The promise of a job that is replaced is never settled.
    run(laneName, slot, name, options = {}) {
      const lane = laneOf(laneName), old = lane.running;
      lane.waiting = lane.waiting.filter(it => it.slot !== slot);
      if (old?.slot === slot) setTimeout(() => { if (lane.running === old) { end(lane); next(lane); } }, PATIENCE);
      return new Promise((resolve, reject) => {
        lane.waiting.push({ id: ++ids, slot, name, options, resolve, reject });
        next(lane);
      });
    },
    stop(laneName) {
      const lane = laneOf(laneName), jobs = [lane.running, ...lane.waiting];
      lane.waiting = [];
      end(lane);
      for (const job of jobs) job?.reject({ kind: 'stopped', text: 'Stopped.' });
    },
    // Ends every worker, and uses another module from now on.
    useModule(other) {
      module = other;
      for (const name of lanes.keys()) this.stop(name);
    },
    isBusy: laneName => Boolean(laneOf(laneName).running),
    get isIdle() { return [...lanes.values()].every(lane => !lane.running && !lane.waiting.length); },
  };
}

// The notes of a command for a reader.
export const notesOf = ({ text, isCut }) => `${text.trim()}${isCut ? ' .. (the notes are longer, and end here)' : ''}`;

const SENTENCES = {
  memory: 'There is not enough memory for this program.',
  trap: 'The checker ended unexpectedly: its stack or its memory may be used up.',
  stopped: 'Stopped.',
  missing: 'This page has no such call.',
};
// What a failure of a job says to the user.
export const sentenceOfFailure = ({ kind, text }) => (SENTENCES[kind] ? `${SENTENCES[kind]}${kind === 'stopped' ? '' : ` (${text})`}` : text);
