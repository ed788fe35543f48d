// The solid things of the picture: the floor, the fixtures and the tool.

const RED = 0xd9203a;
const middle = (low, high) => low.map((it, axis) => (it + high[axis]) / 2);

export function emptyGroup(group) {
  for (const old of [...group.children]) {
    group.remove(old);
    old.traverse(it => { it.geometry?.dispose(); it.material?.dispose(); });
  }
}

// The twelve edges of a box, as the ends of lines.
export function edgesOf(low, high) {
  const a = [], b = [];
  for (const axis of [0, 1, 2]) for (const p of [0, 1]) for (const q of [0, 1]) {
    const [u, v] = [0, 1, 2].filter(it => it !== axis), from = [...low];
    if (p) from[u] = high[u];
    if (q) from[v] = high[v];
    const to = [...from];
    to[axis] = high[axis];
    a.push(...from);
    b.push(...to);
  }
  return [new Float32Array(a), new Float32Array(b)];
}

export function floorOf(low, high, bottom, isDark) {
  const floor = new THREE.Mesh(new THREE.BoxGeometry(high[0] - low[0], high[1] - low[1], 0.01), new THREE.MeshBasicMaterial({ color: isDark ? 0x2a333b : 0xdfe5ea, transparent: true, opacity: 0.35, depthWrite: false }));
  floor.position.set((low[0] + high[0]) / 2, (low[1] + high[1]) / 2, bottom - 0.02);
  return floor;
}

export function fixtureOf({ low, high }, isMet, isDark) {
  const geometry = new THREE.BoxGeometry(...low.map((it, axis) => Math.max(high[axis] - it, 0.01))), group = new THREE.Group();
  const colour = isMet ? RED : isDark ? 0x8fa3b5 : 0x6f8294, edge = isMet ? RED : isDark ? 0xb7c6d4 : 0x4d5c69;
  group.add(new THREE.Mesh(geometry, new THREE.MeshLambertMaterial({ color: colour, transparent: true, opacity: isMet ? 0.4 : 0.34, depthWrite: false, side: THREE.DoubleSide })));
  group.add(new THREE.LineSegments(new THREE.EdgesGeometry(geometry), new THREE.LineBasicMaterial({ color: edge, transparent: true, opacity: 0.8 })));
  for (const it of group.children) it.renderOrder = 1;
  group.position.set(...middle(low, high));
  return group;
}

// A map from above as the colours of a face. It is laid out from the top left, where Y is highest.
export function textureOf(image) {
  const texture = new THREE.Texture(image);
  return Object.assign(texture, { flipY: false, generateMipmaps: false, minFilter: THREE.LinearFilter, magFilter: THREE.NearestFilter, needsUpdate: true });
}
// The top of the block with a map. What is in the material is hidden below it, but for what is marked: it is drawn after the path, the floor and
// the block's sides, before the marks, and leaves no depth. `share` is how much of the map is on the block, along X and Y.
function topOf({ low, high }, map, [u, v]) {
  const geometry = new THREE.BufferGeometry();
  geometry.setAttribute('position', new THREE.BufferAttribute(new Float32Array([low[0], low[1], high[2], high[0], low[1], high[2], low[0], high[1], high[2], high[0], high[1], high[2]]), 3));
  geometry.setAttribute('uv', new THREE.BufferAttribute(new Float32Array([0, 1, u, 1, 0, 1 - v, u, 1 - v]), 2));
  geometry.setIndex([0, 1, 2, 2, 1, 3]);
  const top = new THREE.Mesh(geometry, new THREE.MeshBasicMaterial({ map, transparent: true, depthWrite: false }));
  top.renderOrder = 0.5;
  return top;
}

// The block of material: pale, since the path is inside it. With the map of the finished part that is its top.
export function stockOf({ low, high }, isDark, part = null) {
  const geometry = new THREE.BoxGeometry(...low.map((it, axis) => Math.max(high[axis] - it, 0.01))), group = new THREE.Group(), colour = isDark ? 0xd9b36b : 0xc79a45;
  group.add(new THREE.LineSegments(new THREE.EdgesGeometry(geometry), new THREE.LineBasicMaterial({ color: colour, transparent: true, opacity: 0.75 })));
  if (part) geometry.faces = geometry.faces.filter(it => it.normal.z < 0.5);
  group.add(new THREE.Mesh(geometry, new THREE.MeshLambertMaterial({ color: colour, transparent: true, opacity: 0.16, depthWrite: false })));
  group.position.set(...middle(low, high));
  if (!part) return group;
  const whole = new THREE.Group();
  whole.add(topOf({ low, high }, part.texture, part.share), group);
  return whole;
}

// The tool from its tip up, with the boxes that are checked around it.
export function toolOf(tool, colour, isRefused, isDark) {
  const group = new THREE.Group(), edge = isRefused ? RED : isDark ? 0xc7d2dc : 0x55636f;
  (tool?.parts ?? []).forEach(({ low, high, radius }, at) => {
    const height = high - low, box = new THREE.BoxGeometry(radius * 2, radius * 2, height);
    const solid = new THREE.Mesh(new THREE.CylinderGeometry(radius, radius, height, 32), new THREE.MeshLambertMaterial({ color: isRefused ? RED : at ? 0x9aa6b1 : colour, transparent: true, opacity: isRefused ? 0.55 : 0.8 }));
    solid.rotation.x = Math.PI / 2;
    const edges = new THREE.LineSegments(new THREE.EdgesGeometry(box), new THREE.LineBasicMaterial({ color: edge, transparent: true, opacity: isRefused ? 0.95 : 0.45 }));
    box.dispose();
    for (const it of [solid, edges]) { it.position.z = (low + high) / 2 - tool.bottom; it.renderOrder = 6; group.add(it); }
  });
  return group;
}
