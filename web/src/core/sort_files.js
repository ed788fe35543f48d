// What a file is, by its content. Its name counts only where the content leaves it open.

const HEAD = 65_536;   // bytes that are looked at

export function kindOf(bytes, name) {
  // Without the byte order mark of UTF-8.
  const head = new TextDecoder('latin1').decode(bytes.subarray(0, HEAD)).replace(/^\xef\xbb\xbf/, '');
  if (head.startsWith('ngc-certificate')) return 'certificate';
  if (head.includes('\0') || /^(PK\x03\x04|%PDF|\x89PNG|\xff\xd8)/.test(head) || /^\s*<(svg|html|\?xml|!doctype)/i.test(head)) return 'unknown';
  const lines = head.split('\n').map(it => it.trim()).filter(it => it && !it.startsWith('#'));
  if (lines.some(it => /^\$(100|110|120|130)\s*=/.test(it))) return 'grbl';
  if (name === 'ngc.toml') return 'job';
  const isToml = lines.some(it => /^(\[\[?\s*\w+\s*\]\]?|[a-z_]\w*\s*=\s*\S)/.test(it)) && !lines.some(it => /^[GgMmTtNn]\d/.test(it));
  if (!isToml && !/\.toml$/i.test(name)) return 'program';
  // A job file names the two others. None of them has such a key.
  if (lines.some(it => /^(machine|tools)\s*=\s*["']/.test(it))) return 'job';
  if (lines.some(it => /^\[\[\s*tool\s*\]\]/.test(it))) return 'tools';
  const isMachine = lines.some(it => /^(step|ticks_per_second|max_rate|low|high|origins)\s*=|^\[\[\s*fixture\s*\]\]/.test(it));
  return !isMachine && /tool/i.test(name) ? 'tools' : 'machine';
}
