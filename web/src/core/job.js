// The job file in use, and the files that it names.

const WHAT = { machine: 'machine file', tools: 'tool table' };
// A path ends with its file's name, after a slash or a backslash.
export const lastPart = path => path.split(/[/\\]/).pop();

// The words that a job file added, as --machine=../mill.toml, by their options.
export const valuesOf = (added, option) => added.filter(it => it.startsWith(`--${option}=`)).map(it => it.slice(option.length + 3));
// The names of the machine file and the tool table that it takes, or null.
export const namesIn = added => Object.fromEntries(Object.keys(WHAT).map(kind => [kind, valuesOf(added, kind).map(lastPart)[0] ?? null]));

// A file that was dropped or is made of one that was. An example or a file of the last visit may have the same name by chance.
const isDropped = file => ['user', 'made'].includes(file?.source);
export const isNamed = (job, kind, file) => isDropped(file) && file.name === job.names[kind];
// What to drop beside the job file, as a sentence, or null.
export function lackNow({ files }) {
  const { job } = files, lacking = job ? Object.keys(WHAT).filter(kind => job.names[kind] !== null && !isNamed(job, kind, files[kind])) : [];
  if (!lacking.length) return null;
  return `${job.name} names ${lacking.map(kind => `the ${WHAT[kind]} ${job.names[kind]}`).join(' and ')}: drop ${lacking.length > 1 ? 'them' : 'it'} here.`;
}

// ---- what the picture shows of it. Lengths are millimetres.

const CODES = { 54: 'G54', 55: 'G55', 56: 'G56', 57: 'G57', 58: 'G58', 59: 'G59', 59.1: 'G59.1', 59.2: 'G59.2', 59.3: 'G59.3' };
const numbersIn = text => text.split(',').map(Number);
// `54:0,0,-20,100,60,0`, or without a system
function boxIn(text) {
  const [, code = null, corners] = /^(?:([\d.]+):)?(.*)$/.exec(text), ends = numbersIn(corners), [from, to] = [ends.slice(0, 3), ends.slice(3)];
  return { system: CODES[code] ?? null, low: from.map((it, axis) => Math.min(it, to[axis])), high: from.map((it, axis) => Math.max(it, to[axis])) };
}
// `left clamp=54:-30,20,-10,-5,40,15`, or without a name
function fixtureIn(text) {
  const at = text.lastIndexOf('=');
  return { name: at < 0 ? '' : text.slice(0, at), ...boxIn(text.slice(at + 1)) };
}
// Adds the origins, the clamps, the block of material and the language to what the machine file says. The origins come first, since boxes may
// be in their systems; `origins` are those of this check, in nanometres.
export function addJob(scene, added, origins) {
  for (const value of valuesOf(added, 'origin')) {
    const [code, at] = value.split('=');
    scene.origins[CODES[code]] = numbersIn(at);
  }
  for (const [system, at] of Object.entries(origins)) scene.origins[system] = at.map(it => it / 1e6);
  for (const value of valuesOf(added, 'fixture')) {
    const { name, system, low, high } = fixtureIn(value), origin = scene.origins[system] ?? [0, 0, 0], placed = corner => corner.map((it, axis) => it + origin[axis]);
    scene.fixtures.push({ number: scene.fixtures.length, name, low: placed(low), high: placed(high), isAdded: true });
  }
  for (const value of valuesOf(added, 'stock')) scene.stock = { ...boxIn(value), isAdded: true };
  for (const value of valuesOf(added, 'dialect')) scene.dialect = value;
  return scene;
}
