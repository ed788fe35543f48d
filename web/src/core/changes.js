// What a check replaces in the machine file and the job file: zeros, margins and the way of rapids; its cuts; and the program's dialect.
// Lengths are nanometres.

import { dialectNow } from './controls.js';
import { lackNow } from './job.js';
import { AXES } from './systems.js';
import { inUnit } from './units.js';

// A margin or a way that is null is as these files say.
export const NO_DEMANDS = { margin: null, travelMargin: null, rapids: null };
export const MOST_MARGIN = 100e6;
// How many pieces a motion is cut into at most: without another number, and where the page stops asking for more.
export const CUTS = 8;
export const MOST_CUTS = 4096;
const WAYS = ['straight', 'free'];

export const hasDemands = demands => Object.values(demands).some(it => it !== null);
// `lack` says which file the job file names that isn't here: then nothing is checked.
export const changesOf = state => ({ origins: state.origins, ...state.demands, cuts: state.cuts, dialect: dialectNow(state), job: state.files.job?.name ?? null, lack: lackNow(state) });

const millimetres = nm => inUnit(nm / 1e6, 'mm');
const option = (name, value) => (value === null ? [] : [`--${name}=${value}`]);
const length = (name, nm) => option(name, nm === null ? null : millimetres(nm));

// The same as options of a command line. `origins` is a map from a system to its X, Y and Z.
export const optionsOf = ({ origins = {}, margin = null, travelMargin = null, rapids = null, cuts = null, dialect = null }) => [
  ...Object.entries(origins).map(([system, at]) => `--origin=${system.slice(1)}=${AXES.map((_, axis) => millimetres(Math.round(at[axis]))).join(',')}`),
  ...length('margin', margin), ...length('travel-margin', travelMargin), ...option('rapids', rapids), ...option('cuts', cuts), ...option('dialect', dialect),
];

export const isMargin = nm => Number.isInteger(nm) && nm >= 0 && nm <= MOST_MARGIN;
const isMarginOrNone = it => it === null || isMargin(it);
// The same values if they are demands, or none.
export function demandsIn(value) {
  const { margin = null, travelMargin = null, rapids = null } = value ?? {};
  const areGood = isMarginOrNone(margin) && isMarginOrNone(travelMargin) && (rapids === null || WAYS.includes(rapids));
  return areGood ? { margin, travelMargin, rapids } : NO_DEMANDS;
}
