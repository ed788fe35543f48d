// The picture: travel, fixtures, path, tool and labels. It draws only when something changed.

import { dialectNow } from '../core/controls.js';
import { AXES } from '../core/systems.js';
import { isMotion, KIND_NAMES, momentAt, passesOf, tipAt } from '../core/motion.js';
import { current, failureOf, isRunning } from '../core/store.js';
import { shareOf } from '../core/part.js';
import { contactNow, entryNow, groupNow, partNow, partSentence, pathNow, sceneNow, stockIn, timesNow } from '../core/shown.js';
import { isHolder, isRapid } from '../core/sentences.js';
import { sentenceOfFailure } from '../core/jobs.js';
import { inUnit, rate, short } from '../core/units.js';
import { PART_COLOURS, RAMP, TOOL_COLOURS, partsOf, toolColour } from './colours.js';
import { fill, h, id } from './dom.js';
import { Orbit } from './camera.js';
import { Lines, PathLines } from './lines.js';
import { makeLabels } from './labels.js';
import { edgesOf, emptyGroup, fixtureOf, floorOf, stockOf, textureOf, toolOf } from './models.js';
import { pick } from './picking.js';

const HOVER_MOST = 400_000;     // segments that a pointer that only moves is compared with
const SOFTWARE_MOST = 20_000;   // segments that a software renderer draws as wide lines
const SLOW = 70;                // ms for a frame, from which on a renderer is slow
const AXIS_COLOURS = [[1, 0.24, 0.24], [0.16, 0.67, 0.27], [0.2, 0.43, 0.94]], AXIS_LENGTH = 18;
const isDark = () => document.documentElement.dataset.shade === 'dark';

// Whether WebGL runs without a graphics card. Then lines are drawn without antialiasing, and long paths one point wide.
function hasSoftwareOnly() {
  const context = document.createElement('canvas').getContext('webgl', { failIfMajorPerformanceCaveat: true });
  if (!context) return true;
  const names = context.getExtension('WEBGL_debug_renderer_info'), name = String(context.getParameter(names ? names.UNMASKED_RENDERER_WEBGL : context.RENDERER));
  context.getExtension('WEBGL_lose_context')?.loseContext();
  return /swiftshader|llvmpipe|softpipe|software|basic render/i.test(name);
}
// The renderer, or null if there is no WebGL.
function startRenderer(canvas) {
  const isSoftware = hasSoftwareOnly();
  try {
    const renderer = new THREE.WebGLRenderer({ canvas, antialias: !isSoftware, alpha: true });
    renderer.setPixelRatio(isSoftware ? 1 : Math.min(window.devicePixelRatio || 1, 2));
    renderer.setClearColor(0, 0);
    // Asking for errors after each program waits for the graphics card.
    renderer.debug.checkShaderErrors = false;
    return { renderer, isSoftware };
  } catch { return null; }
}

// The points that the picture shows when it is fitted: what is cut, the tool where it hits, and the fixtures nearby.
function pointsToFit({ path, scene, contact, entry }) {
  const points = [], corners = (low, high) => { for (const x of [low[0], high[0]]) for (const y of [low[1], high[1]]) for (const z of [low[2], high[2]]) points.push(new THREE.Vector3(x, y, z)); };
  if (!path?.bounds) { if (scene) corners(scene.low, scene.high); return points; }
  const low = [...path.bounds.low], high = [...path.bounds.high];
  if (contact) {
    points.push(new THREE.Vector3(contact.tip[0], contact.tip[1], contact.tip[2] + Math.min(60, -(contact.tool?.bottom ?? 0)) * 1.25));
    contact.tip.forEach((it, axis) => { low[axis] = Math.min(low[axis], it); high[axis] = Math.max(high[axis], it); });
  }
  const span = Math.max(high[0] - low[0], high[1] - low[1], 5), reach = Math.max(8, span * 0.25), margin = Math.max(3, span * 0.12);
  const stock = stockIn(scene);
  if (stock) corners(stock.low, stock.high);
  for (const it of scene?.fixtures ?? []) {
    const isMet = entry?.obstacle?.fixture === it.number, isNear = [0, 1].every(axis => it.low[axis] <= high[axis] + reach && it.high[axis] >= low[axis] - reach);
    if (!isMet && !isNear) continue;
    corners([Math.max(it.low[0], low[0] - 2 * reach), Math.max(it.low[1], low[1] - 2 * reach), Math.max(it.low[2], Math.min(low[2] - 12, it.high[2]))],
      [Math.min(it.high[0], high[0] + 2 * reach), Math.min(it.high[1], high[1] + 2 * reach), it.high[2]]);
  }
  corners(low.map((it, axis) => it - (axis < 2 ? margin : 2)), high.map((it, axis) => it + (axis < 2 ? margin : Math.min(24, span * 0.35))));
  return points;
}

// What the colours of the finished part mean.
const coloursOfPart = () => PART_COLOURS.map(([colour, words]) => h('span', {}, h('i', { class: 'swatch area', style: { background: colour } }), words));

export function makePicture(store) {
  const holder = id('view'), canvas = id('canvas'), started = startRenderer(canvas);
  if (!started) return null;
  const { renderer, isSoftware } = started, labels = makeLabels(id('labels')), world = new THREE.Scene();
  const fixed = new THREE.Group(), toolModel = new THREE.Group(), hitModel = new THREE.Group(), paths = new PathLines({ width: 2.2, colours: TOOL_COLOURS.map(partsOf) });
  const lines = {
    marked: new Lines({ width: 5, lift: 0.0002, order: 4 }), hover: new Lines({ width: 4, lift: 0.0001, order: 3 }), refused: new Lines({ width: 5, lift: 0.0003, order: 5 }),
    frame: new Lines({ width: 1.3 }), axes: new Lines({ width: 2.4, lift: 0.0001, colours: AXIS_COLOURS }),
  };
  const sun = new THREE.DirectionalLight(0xffffff, 0.75);
  sun.position.set(-1, -2, 3);
  world.add(new THREE.HemisphereLight(0xffffff, 0x8899aa, 0.75), sun, fixed, toolModel, hitModel, paths.group, ...Object.values(lines).map(it => it.mesh));
  const orbit = new Orbit(canvas, request);
  let isWanted = false, isSlow = isSoftware, lastFrame = 0, frames = 0, fitted = '', fittedTo = 0, drawnBase = 0, moment = null, shownTool = '';
  let data = { scene: null, path: null, group: null, times: null, entry: null, contact: null }, part = null;

  // ---- drawing

  function request() { if (!isWanted) { isWanted = true; requestAnimationFrame(draw); } }
  function draw(now = performance.now()) {
    isWanted = false;
    const width = holder.clientWidth, height = holder.clientHeight, size = renderer.getSize(new THREE.Vector2());
    if (!width || !height) return;
    if (size.x !== width || size.y !== height) renderer.setSize(width, height, false);
    orbit.update();
    for (const it of [paths, ...Object.values(lines)]) it.uniforms.size.value.set(width, height);
    if (orbit.isMoving && now - lastFrame > SLOW && now - lastFrame < 3000) isSlow = true;
    paths.show(isSlow && (orbit.isMoving || (isSoftware && paths.count > SOFTWARE_MOST)));
    renderer.render(world, orbit.camera);
    labels.place(orbit.camera, width, height);
    lastFrame = now;
    frames++;
  }

  // ---- what doesn't move: travel, fixtures, the zeros in use

  // The path is that of the tip, so the frame is where the tip of the tool in use can go.
  function tipOfTool() {
    const { scene, path, entry } = data;
    if (!path?.count || !scene) return 0;
    let last = path.count - 1;
    while (last > 0 && !isMotion(path, last)) last--;
    const command = Math.min(moment?.command ?? entry?.command.index ?? last, path.count - 1);
    return scene.tools.find(it => it.number === path.tools[command])?.bottom ?? 0;
  }
  const travelOf = (scene, tip) => [[scene.low[0], scene.low[1], scene.low[2] + tip], [scene.high[0], scene.high[1], scene.high[2] + tip]];
  // The lines of the motions that may touch material, at their places on the finished part.
  function touchesOf(group, scene, stock) {
    const origin = scene.origins[scene.stock.system] ?? [0, 0, 0];
    return (group?.material ?? []).filter(it => isRapid(it) || isHolder(it)).map(({ line, at }) => ({ kind: 'touch', text: `line ${line}`, at: [at[0] / 1e6 + origin[0], at[1] / 1e6 + origin[1], stock.high[2]] }));
  }
  // Puts another map on the block, or none.
  function showPart(made) {
    part?.texture.dispose();
    part = made?.image ? { image: made.image, texture: textureOf(made.image) } : null;
    drawFixed();
    showLegend();
  }
  function drawFixed() {
    const { scene, group, entry, contact } = data, dark = isDark();
    emptyGroup(fixed);
    lines.frame.clear();
    lines.axes.clear();
    request();
    if (!scene) return labels.set([]);
    const [low, high] = travelOf(scene, tipOfTool()), { unit } = store.state, made = [];
    if (contact) made.push({ kind: 'hit', text: contact.label, at: contact.tip });
    const ends = [[low, [high[0], low[1], low[2]]], [low, [low[0], high[1], low[2]]], [[low[0], high[1], low[2]], [low[0], high[1], high[2]]]];
    ends.forEach(([from, to], axis) => made.push({ kind: 'axis', text: `${AXES[axis]} ${inUnit(scene.high[axis] - scene.low[axis], unit)}`, at: from.map((it, at) => (it + to[at]) / 2), ends: [from, to] }));
    lines.frame.set(...edgesOf(low, high));
    fixed.add(floorOf(low, high, Math.min(low[2], ...scene.fixtures.map(it => it.low[2])), dark));
    for (const it of scene.fixtures) {
      const isMet = entry?.obstacle?.fixture === it.number;
      fixed.add(fixtureOf(it, isMet, dark));
      made.push({ kind: isMet ? 'fixture met' : 'fixture', text: it.name || `fixture ${it.number}`, at: [(it.low[0] + it.high[0]) / 2, (it.low[1] + it.high[1]) / 2, it.high[2]] });
    }
    const stock = stockIn(scene);
    if (stock) {
      fixed.add(stockOf(stock, dark, part && { texture: part.texture, share: shareOf(stock, part.image) }));
      if (part) made.push(...touchesOf(group, scene, stock));
      made.push({ kind: 'stock', text: 'material', at: [stock.high[0], (stock.low[1] + stock.high[1]) / 2, stock.high[2]] });
    }
    const used = new Set((group?.lowest ?? []).map(it => it.system)), systems = used.size ? [...used] : ['G54'], a = [], b = [], marks = [];
    for (const system of systems.filter(it => scene.origins[it])) {
      const at = scene.origins[system];
      AXES.forEach((_, axis) => { a.push(...at); b.push(...at.map((it, other) => (other === axis ? it + AXIS_LENGTH : it))); marks.push(axis, 0, 0, 0); });
      made.push({ kind: 'origin', text: system, at: [at[0] - 4, at[1] - 4, at[2]] });
    }
    lines.axes.set(new Float32Array(a), new Float32Array(b), new Uint8Array(marks));
    labels.set(made);
  }

  // ---- the path, the tool and what is marked

  // Shows the segments of ranges of commands.
  function showRanges(shown, ranges) {
    const { path } = data, parts = path ? ranges.filter(([from, to]) => from < to).map(range => range.map(it => path.first[it] * 3)) : [];
    const joined = values => {
      const made = new Float32Array(parts.reduce((sum, [from, to]) => sum + to - from, 0));
      let at = 0;
      for (const [from, to] of parts) { made.set(values.subarray(from, to), at); at += to - from; }
      return made;
    };
    if (parts.length) shown.set(joined(path.a), joined(path.b)); else shown.clear();
    request();
  }
  const showCommands = (shown, from, to) => showRanges(shown, [[from, to]]);
  const showLine = line => showRanges(lines.marked, passesOf(data.path, line));
  function drawTool() {
    const { scene, path } = data, number = moment && path ? path.tools[moment.command] : 0, key = `${number} ${isDark()} ${path ? toolColour(path, number) : ''}`;
    if (key !== shownTool) {
      shownTool = key;
      emptyGroup(toolModel);
      if (number) toolModel.add(toolOf(scene?.tools.find(it => it.number === number), new THREE.Color(toolColour(path, number)).getHex(), false, isDark()));
    }
    toolModel.visible = moment !== null;
    if (moment) toolModel.position.set(...moment.tip);
  }
  // The refused motion in red, and the tool where it first touches.
  function drawRefused() {
    const { contact } = data;
    emptyGroup(hitModel);
    lines.refused.clear();
    holder.dataset.contact = String(Boolean(contact));
    if (!contact) return;
    if (contact.command !== null) showCommands(lines.refused, contact.command, contact.command + 1);
    else if (contact.from) lines.refused.set(new Float32Array(contact.from), new Float32Array(contact.to));
    const model = toolOf(contact.tool, 0, true, isDark());
    model.position.set(...contact.tip);
    hitModel.add(model);
  }
  function showMoment(time) {
    const { path, times } = data, before = tipOfTool();
    moment = path && times && time !== null ? momentAt(path, times, time) : null;
    paths.uniforms.done.value = moment ? moment.segment : 1e9;
    drawTool();
    if (tipOfTool() !== before) drawFixed();
    showPosition();
    request();
  }

  // ---- words over the picture

  // Position, tool, line and feed of the motion under the pointer, or of the player's moment.
  function showPosition() {
    const { path, scene } = data, out = id('readout'), { unit, hovered } = store.state;
    out.hidden = !path || !scene || (!moment && hovered < 0);
    if (out.hidden) return;
    const command = hovered >= 0 ? hovered : moment.command, { tip } = hovered >= 0 ? tipAt(path, command, 1) : moment, zero = scene.origins.G54 ?? [0, 0, 0];
    const feed = path.feeds[command] && isMotion(path, command) ? ` ${rate(path.feeds[command], unit)}` : '', tool = path.tools[command] ? `T${path.tools[command]}` : 'no tool';
    fill(out, h('div', { class: 'axes' }, AXES.map((axis, at) => h('span', {}, h('b', {}, axis), short(tip[at] - zero[at], unit)))),
      h('div', { class: 'quiet' }, `line ${path.lines[command]} \u00b7 ${tool} \u00b7 ${KIND_NAMES[path.kinds[command]]}${feed}`));
  }
  function showLegend() {
    const { path, scene } = data, { colour, unit } = store.state, out = id('legend'), failure = failureOf(store.state, 'path');
    const about = partSentence(store.state), parts = part ? coloursOfPart() : about ? h('span', {}, about) : null;
    if (failure) return fill(out, h('span', {}, `There is no path. ${sentenceOfFailure(failure)}`), parts);
    if (!path?.owner.length) return fill(out, parts);
    const nameOf = number => { const name = scene?.tools.find(it => it.number === number)?.name; return number ? `T${number}${name ? ` ${name}` : ''}` : 'no tool'; };
    const items = colour === 'feed' ? [h('span', {}, h('i', { class: 'swatch wide' }), `feed 0 to ${rate(path.fastest, unit)}`)]
      : path.order.slice(0, 8).map(number => h('span', {}, h('i', { class: 'swatch', style: { background: toolColour(path, number) } }), nameOf(number)));
    fill(out, items, h('span', {}, h('i', { class: 'dashes' }), 'rapid'), parts, path.isCut ? h('span', {}, 'the picture stops after 4,000,000 segments') : null);
  }
  function themeChanged() {
    const dark = isDark();
    paths.uniforms.fade.value.set(...(dark ? [0.22, 0.26, 0.3] : [0.84, 0.87, 0.9]));
    paths.uniforms.rapid.value.set(...(dark ? [0.6, 0.65, 0.7] : [0.45, 0.5, 0.55]));
    paths.uniforms.ramp.value = RAMP.map(it => new THREE.Vector3(...partsOf(it)));
    lines.hover.colour(dark ? [1, 1, 1] : [0.1, 0.12, 0.15]);
    lines.marked.colour(dark ? [1, 0.72, 0.2] : [0.95, 0.5, 0]);
    lines.refused.colour(dark ? [1, 0.36, 0.42] : [0.86, 0.05, 0.15]);
    lines.frame.colour(dark ? [0.45, 0.5, 0.56] : [0.6, 0.65, 0.7]);
    shownTool = '';
    drawRefused();
    drawFixed();
    drawTool();
    showLegend();
    showPosition();
  }

  // ---- fitting and picking

  const fit = () => orbit.fit(pointsToFit(data));
  function fitAll() {
    if (!data.scene) return;
    const [low, high] = travelOf(data.scene, tipOfTool());
    orbit.fit(pointsToFit({ ...data, path: null, scene: { low, high } }).concat(pointsToFit(data)));
  }
  const commandAt = (x, y, most) => (data.path && data.path.owner.length <= most ? pick(data.path, orbit, x, y, store.state.hasRapids) : -1);
  const hoverOver = hovered => { if (hovered !== store.state.hovered) store.dispatch({ type: 'set', values: { hovered } }); };
  let pointer = null;
  canvas.addEventListener('pointermove', event => {
    if (event.pointerType === 'touch' || orbit.pointers.size) return;
    const isFirst = !pointer;
    pointer = [event.offsetX, event.offsetY];
    if (isFirst) requestAnimationFrame(() => { if (pointer) hoverOver(commandAt(...pointer, HOVER_MOST)); pointer = null; });
  });
  canvas.addEventListener('pointerleave', () => { pointer = null; hoverOver(-1); });
  canvas.addEventListener('pointerup', event => {
    const command = event.button === 0 && orbit.isClick ? commandAt(event.offsetX, event.offsetY, Infinity) : -1;
    if (command >= 0) store.dispatch({ type: 'line', line: data.path.lines[command], from: 'picture', time: data.times?.[command] ?? null });
  });
  canvas.addEventListener('dblclick', fit);
  canvas.addEventListener('keydown', event => { if (event.key === '0') fit(); else if (!orbit.key(event)) return; event.preventDefault(); });
  id('views').onclick = event => {
    const { view, fit: whole, zoom } = event.target.closest('button')?.dataset ?? {};
    if (view) { const wasFitted = !orbit.isTouched; orbit.view(view); if (wasFitted) fit(); }
    if (whole) whole === 'path' ? fit() : fitAll();
    if (zoom) orbit.zoomAt(Number(zoom));
  };

  // ---- watching the state

  store.watch(state => [sceneNow(state), pathNow(state), groupNow(state), timesNow(state), entryNow(state), contactNow(state), isRunning(state, 'path'), state.files.program?.base], (scene, path, group, times, entry, contact, isWaiting, base) => {
    const isNew = data.path !== path;
    data = { scene, path, group, times, entry, contact };
    if (isNew) moment = null;
    // While a program is edited its last path stays, pale and out of reach, so that the picture doesn't flicker.
    const keepsPale = !path && isWaiting && base === drawnBase;
    if (path ? isNew : !keepsPale && paths.count) { paths.set(path); showLine(store.state.line); lines.hover.clear(); }
    drawnBase = base;
    drawRefused();
    drawFixed();
    // The path is shown as soon as it is there, and again with what the report adds.
    const key = `${store.state.files.program?.name} ${store.state.files.machine?.version} ${JSON.stringify(store.state.origins)} ${dialectNow(store.state)}`;
    const known = Number(Boolean(path)) + Number(Boolean(group)), isMore = fitted !== key || (known > fittedTo && !orbit.isTouched);
    if (scene && known && isMore) { fit(); fitted = key; fittedTo = known; }
    showMoment(store.state.time);
    showLegend();
  });
  store.watch(state => [isRunning(state, 'path') || isRunning(state, 'report'), failureOf(state, 'path')], isWaiting => { holder.dataset.waiting = String(isWaiting); showLegend(); });
  store.watch(state => [partNow(state)], showPart);
  store.watch(state => [partSentence(state)], showLegend);
  store.watch(state => [state.line, pathNow(state)], showLine);
  store.watch(state => [state.hovered], command => { showCommands(lines.hover, command, command < 0 ? command : command + 1); showPosition(); });
  store.watch(state => [state.colour, state.hasRapids], (colour, hasRapids) => {
    paths.uniforms.byFeed.value = colour === 'feed' ? 1 : 0;
    paths.uniforms.hidesRapids.value = hasRapids ? 0 : 1;
    showLegend();
    request();
  });
  store.watch(state => [state.unit, document.documentElement.dataset.shade], themeChanged);
  store.watch(state => [state.time], showMoment);
  new ResizeObserver(() => { if (!orbit.isTouched && data.scene) fit(); request(); }).observe(holder);

  return {
    fit, orbit, draw, isSoftware, themeChanged,
    get data() { return data; },
    get part() { return part; },
    get frames() { return frames; },
    get markedSegments() { return lines.marked.count; },
    // The picture as PNG. One for paper has the light colours.
    image(shade = document.documentElement.dataset.shade) {
      const { dataset } = document.documentElement, before = dataset.shade, show = it => { if (dataset.shade !== it) { dataset.shade = it; themeChanged(); } };
      show(shade);
      draw();
      const url = canvas.toDataURL('image/png');
      show(before);
      return url;
    },
    // Where a point of the machine is on the canvas.
    screenOf(point) { const at = new THREE.Vector3(...point).project(orbit.camera), [width, height] = orbit.size; return [(at.x + 1) * width / 2, (1 - at.y) * height / 2]; },
  };
}

// Without WebGL or three.js the picture is the drawing of `ngc draw`, or its map of the finished part.
export function makeDrawing(store) {
  const holder = id('view');
  holder.dataset.plain = 'true';
  let url = '';
  function show(output, type, kind, alt) {
    url = URL.createObjectURL(new Blob([output], { type }));
    fill(id('labels'), h('img', { class: kind, alt, src: url }));
  }
  store.watch(state => [current(state, 'drawing'), partNow(state)], (drawing, part) => {
    URL.revokeObjectURL(url);
    if (part?.image) show(part.output, 'image/png', 'drawing map', 'What the program leaves of the block of material, from above');
    else if (drawing?.output.length) show(drawing.output, 'image/svg+xml', 'drawing', 'The program on the machine, from the side that the buttons choose');
    else fill(id('labels'));
  });
  store.watch(state => [partSentence(state), Boolean(partNow(state)?.image)], (about, hasMap) => {
    id('no-webgl').hidden = hasMap || Boolean(about);
    fill(id('part-note'), hasMap ? ['The finished part from above.', coloursOfPart()] : about);
  });
}
