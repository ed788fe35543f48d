// The controls whose programs are read in their own language, and which of them a program is for.

// The options of `--dialect`, in the order of the numbers that `ngc_adapt` takes, and their names.
export const CONTROLS = { linuxcnc: 'LinuxCNC', grbl: 'GRBL', mach3: 'Mach3', fanuc: 'Fanuc' };
// The answer that a program is for no control, but in our own language.
export const OWN = 'own';
const OPTIONS = Object.keys(CONTROLS);
export const numberOf = control => OPTIONS.indexOf(control);
// The same value if it is an answer, or null.
export const controlIn = value => (value === OWN || OPTIONS.includes(value) ? value : null);
// The dialect of that name, or null for our own language.
export const dialectOf = control => (OPTIONS.includes(control) ? control : null);
// The option `--dialect` for an answer, where `ngc` is our own language. Without an answer the job file or the machine file decides.
export const optionFor = control => (control === OWN ? 'ngc' : dialectOf(control));
// The same for the program in use. An example is in our own language, and so is what `ngc adapt` printed.
export const dialectNow = ({ files, control }) => optionFor(files.program?.isOwn ? OWN : control);

// What only one control's programs have. The first one that a program has counts. Each looks within a line, so that a long text takes no
// time.
const SIGNS = [
  ['linuxcnc', /linuxcnc|pathpilot|emc2/i], ['grbl', /grbl|fluidnc/i], ['mach3', /mach ?[34]|mach2\/3/i], ['fanuc', /fanuc|haas/i],
  ['grbl', /^[ \t]*\$(H|X|C|J=)/m],
  ['linuxcnc', /^[ \t]*(N\d+[ \t]*)?O[ \t]*(\d+|<[^>\n]*>|\[[^\]\n]*\])[ \t]*(sub|endsub|call|return|if|elseif|else|endif|while|endwhile|do|repeat|break|continue)\b/im],
  ['linuxcnc', /#<\w+>/],
  ['fanuc', /\b(WHILE|IF)[ \t]*\[|\bGOTO[ \t]*\d|^(?:[ \t]*%)?[ \t]*[O:]\d{4,5}\b/im],
];
// The control that a program's text names or whose language it has, or null.
export const signOf = text => SIGNS.find(([, sign]) => sign.test(text))?.[0] ?? null;

// Faults that programs of CAM systems have in our own language: a character, a letter, a word or a code that it lacks, a missing end or
// `%`, two codes of one group, a full circle without an axis word.
const FAULTS_OF_OTHERS = [112, 114, 115, 117, 120, 121, 201, 204, 205, 207, 209, 241];
const MOST_OF_PROGRAM = 299;   // the greatest fault number of a program; greater ones are about other files and the check

export const isRefusal = report => Boolean(report?.fault) && report.fault <= MOST_OF_PROGRAM && !report.refusedFile;
// Whether a program that is refused in our own language looks as if it were for a control.
export const looksForeign = (program, report) => isRefusal(report) && !report.dialect && (program.sign !== null || FAULTS_OF_OTHERS.includes(report.fault));
