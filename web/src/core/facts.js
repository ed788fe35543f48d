// Groups the objects of a JSON report by the setting of block delete that they belong to.

const LISTS = { extent: 'extents', use: 'uses', use_time: 'useTimes', figures: 'figures', lowest: 'lowest', warning: 'warnings', note: 'notes',
  material: 'material', material_untested: 'untestedTools' };

const newGroup = blockDelete => ({ blockDelete, fits: null, verdict: null, commands: [], faults: [], extents: [], uses: [], useTimes: [],
  figures: [], lowest: [], warnings: [], notes: [], material: [], untestedTools: [], materialMargin: null, isMaterialFar: false, time: null, line: null, mark: null, reason: null, noOrigin: null, isUnreadable: false, hasNoFixtures: false });

// Facts that belong to no setting of block delete.
const ABOUT_CHECK = ['report', 'origin', 'margins', 'rapids', 'fault'];
// What a fact says about the last command that is in the way.
const ABOUT_COMMAND = { obstacle: 'obstacle', clear: 'clear', coordinates: 'coordinates', margin_missing: 'marginMissing', any_way: 'anyWay' };

export function groupsOf(facts) {
  const groups = [];
  let group = null;
  for (const fact of facts) {
    const { fact: kind } = fact;
    if (ABOUT_CHECK.includes(kind)) continue;
    if (kind === 'setting') { groups.push(group = newGroup(fact.block_delete)); continue; }
    if (!group) groups.push(group = newGroup(null));
    if (LISTS[kind]) group[LISTS[kind]].push(fact);
    else if (kind === 'start' || kind === 'command') group.commands.push({ command: fact });
    else if (ABOUT_COMMAND[kind]) Object.assign(group.commands[group.commands.length - 1] ?? {}, { [ABOUT_COMMAND[kind]]: fact });
    else if (kind === 'verdict') { group.fits = fact.fits; group.verdict = fact; }
    else if (kind === 'no_origin') group.noOrigin = fact.system;
    else if (kind === 'fixtures') group.hasNoFixtures = true;
    else if (kind === 'unreadable') group.isUnreadable = true;
    else if (kind === 'material_margin') group.materialMargin = fact.less;
    else if (kind === 'material_far') group.isMaterialFar = true;
    else if (kind === 'fault_in') {
      const { reason, mark, isUnreadable } = group;
      group.faults.push({ line: fact.line, number: fact.number, reason: reason?.text ?? '', column: mark?.line === fact.line ? mark.column : null, isLater: fact.after_earlier_faults, isUnreadable: isUnreadable && !reason && mark?.line === fact.line });
      group.reason = null;
    } else if (['time', 'line', 'mark', 'reason'].includes(kind)) group[kind] = fact;
  }
  return groups;
}

// What a report keeps clear of: the margins in nanometres, and whether rapids may take any way.
export function keptOf(facts) {
  const { fixtures = 0, travel = 0 } = facts.find(it => it.fact === 'margins') ?? {};
  return { fixtures, travel, hasFreeRapids: facts.some(it => it.fact === 'rapids' && it.way === 'free') };
}

// The warnings or notes of a group, each with what the report's text adds to it: a remark, or the whole of its words.
export function withRemarks(group, kind, remarks) {
  const facts = group?.[`${kind}s`] ?? [], setting = group?.blockDelete ?? null, said = (remarks?.[setting === null ? null : setting ? 'on' : 'off'] ?? []).filter(it => it.kind === kind);
  return facts.map((it, at) => { const { remark = null, whole = null } = said.length === facts.length ? said[at] : {}; return { ...it, remark, words: whole ?? [it.text, remark].filter(Boolean).join(': ') }; });
}
// The group that is shown at a setting of block delete, or null if the report stopped before it.
export const groupAt = (groups, blockDelete) => groups.find(it => it.blockDelete === null || it.blockDelete === blockDelete) ?? null;
