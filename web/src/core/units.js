// Lengths are exact nanometres inside. In millimetres they are shown exactly; in inches they are rounded to a ten-thousandth.

const NM_OF_STEP = 2540;   // a ten-thousandth of an inch
const trim = text => text.replace(/(\.\d*?)0+$/, '$1').replace(/\.$/, '');
const minus = text => text.replace('-', '\u2212');

export const inUnit = (mm, unit) => (unit === 'in' ? trim((mm / 25.4).toFixed(4)) : trim(mm.toFixed(6)));
export const length = (nm, unit) => `${minus(inUnit(nm / 1e6, unit))} ${unit}`;
// A distance that must be enough is rounded up, and one that is left is rounded down. In millimetres both are exact.
const rounded = (nm, unit, round) => length(unit === 'in' ? round(nm / NM_OF_STEP) * NM_OF_STEP : nm, unit);
export const enough = (nm, unit) => rounded(nm, unit, Math.ceil);
export const atLeast = (nm, unit) => rounded(nm, unit, Math.floor);
export const short = (mm, unit) => minus(unit === 'in' ? (mm / 25.4).toFixed(3) : mm.toFixed(2));
export const rate = (mmPerMinute, unit) => (unit === 'in' ? `${trim((mmPerMinute / 25.4).toFixed(1))} in/min` : `${trim(mmPerMinute.toFixed(1))} mm/min`);
export const count = number => number.toLocaleString('en').replace(/,/g, '\u202f');
export const plural = (number, one, many = `${one}s`) => `${count(number)} ${number === 1 ? one : many}`;
export const size = bytes => (bytes < 1000 ? `${bytes} bytes` : bytes < 1e6 ? `${(bytes / 1e3).toFixed(1)} kB` : `${(bytes / 1e6).toFixed(1)} MB`);

export function duration(seconds) {
  const whole = Math.max(0, Math.round(seconds)), hours = Math.floor(whole / 3600), two = it => String(it).padStart(2, '0');
  const minutes = Math.floor(whole / 60) % 60;
  return hours ? `${hours}:${two(minutes)}:${two(whole % 60)}` : `${minutes}:${two(whole % 60)}`;
}

// A number that a user typed, with a comma or a point, in nanometres. NaN if it isn't one.
export const typedLength = (text, unit) => {
  const word = text.trim().replace(',', '.').replace('\u2212', '-');
  return word ? Math.round(Number(word) * (unit === 'in' ? 25.4e6 : 1e6)) : NaN;
};
