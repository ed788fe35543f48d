// Lines of a constant width on the screen, drawn as instanced quads, since WebGL itself draws lines one point wide. One mesh holds the
// whole path, so 100,000 motions are one call. Colours are chosen in the shader, so another colouring changes no segment.

const COLOUR = `
attribute vec4 marks; attribute float order;
uniform vec3 palette[8]; uniform vec3 ramp[3]; uniform vec3 rapid; uniform float byFeed; uniform float done; uniform float hidesRapids;
varying vec3 vTint; varying float vFaded; varying float vDashed;
bool isHidden() { return hidesRapids * marks.z > 0.5; }
void choose() {
  vDashed = marks.z;
  vFaded = order > done ? 1.0 : 0.0;
  float share = marks.y / 255.0;
  vec3 fed = share < 0.5 ? mix(ramp[0], ramp[1], share * 2.0) : mix(ramp[1], ramp[2], share * 2.0 - 1.0);
  vTint = byFeed > 0.5 ? (marks.z > 0.5 ? rapid : fed) : palette[int(mod(marks.x, 8.0) + 0.5)];
}`;
const WIDE = `${COLOUR}
attribute vec3 a; attribute vec3 b;
uniform vec2 size; uniform float width; uniform float lift;
varying float vAlong;
void main() {
  if (isHidden()) { gl_Position = vec4(2.0, 2.0, 2.0, 1.0); return; }
  choose();
  vec4 p = projectionMatrix * modelViewMatrix * vec4(a, 1.0), q = projectionMatrix * modelViewMatrix * vec4(b, 1.0);
  vec2 from = p.xy * size * 0.5, to = q.xy * size * 0.5, along = to - from;
  float span = length(along), wide = width * (1.0 - 0.45 * marks.z);
  vec2 unit = span > 0.001 ? along / span : vec2(1.0, 0.0), side = vec2(-unit.y, unit.x);
  vec2 at = mix(from, to, position.x) + side * position.y * wide * 0.5 + unit * (position.x - 0.5) * wide * 0.6;
  vAlong = position.x * span;
  gl_Position = vec4(at / (size * 0.5), mix(p.z, q.z, position.x) - lift - (vFaded > 0.5 ? 0.0 : 0.00001), 1.0);
}`;
const THIN = `${COLOUR}
varying float vAlong;
void main() {
  vAlong = 0.0;
  choose();
  gl_Position = isHidden() ? vec4(2.0, 2.0, 2.0, 1.0) : projectionMatrix * modelViewMatrix * vec4(position, 1.0);
}`;
const FRAGMENT = `
uniform float dash; uniform vec3 fade;
varying vec3 vTint; varying float vFaded; varying float vDashed; varying float vAlong;
void main() {
  if (vDashed > 0.5 && mod(vAlong, dash * 2.0) > dash) discard;
  gl_FragColor = vec4(mix(vTint, fade, vFaded * 0.78), 1.0);
}`;

const eight = colours => Array.from({ length: 8 }, (_, at) => new THREE.Vector3(...colours[at % colours.length]));
const uniformsOf = ({ width, lift = 0, colours = [[0.5, 0.5, 0.5]] }) => Object.fromEntries(Object.entries({
  size: new THREE.Vector2(1, 1), width, lift, dash: 5, done: 1e9, fade: new THREE.Vector3(0.8, 0.8, 0.8), hidesRapids: 0, byFeed: 0,
  palette: eight(colours), ramp: eight(colours).slice(0, 3), rapid: new THREE.Vector3(0.5, 0.5, 0.5),
}).map(([name, value]) => [name, { value }]));

function quads() {
  const geometry = new THREE.InstancedBufferGeometry();
  geometry.setAttribute('position', new THREE.BufferAttribute(new Float32Array([0, -1, 0, 0, 1, 0, 1, -1, 0, 1, 1, 0]), 3));
  geometry.setIndex([0, 1, 2, 2, 1, 3]);
  geometry.maxInstancedCount = 0;
  return geometry;
}

// A few lines, or the whole path. Lines with an order are drawn in it among what is see-through, after all that isn't.
export class Lines {
  constructor(how) {
    this.uniforms = uniformsOf(how);
    this.material = new THREE.ShaderMaterial({ vertexShader: WIDE, fragmentShader: FRAGMENT, uniforms: this.uniforms, side: THREE.DoubleSide, transparent: 'order' in how });
    this.mesh = new THREE.Mesh(quads(), this.material);
    this.mesh.frustumCulled = false;
    this.mesh.renderOrder = how.order ?? 0;
    this.mesh.visible = false;
    this.count = 0;
  }
  // `a`, `b`: the ends of each segment; `marks`: four bytes of each; `order`: when each is run.
  set(a, b, marks = new Uint8Array(a.length / 3 * 4), order = new Float32Array(a.length / 3)) {
    this.mesh.geometry.dispose();
    const geometry = quads();
    for (const [name, values, width] of [['a', a, 3], ['b', b, 3], ['marks', marks, 4], ['order', order, 1]]) geometry.setAttribute(name, new THREE.InstancedBufferAttribute(values, width));
    this.count = geometry.maxInstancedCount = a.length / 3;
    this.mesh.geometry = geometry;
    this.mesh.visible = this.count > 0;
  }
  clear() { if (this.count) this.set(new Float32Array(0), new Float32Array(0)); }
  colour(...colours) { this.uniforms.palette.value = eight(colours); }
}

// The path: as wide lines, and as lines one point wide with a few segments in one, for renderers that are slow. Each is made when it is
// first shown.
export class PathLines {
  constructor(how) {
    this.wide = new Lines(how);
    this.thinMaterial = new THREE.ShaderMaterial({ vertexShader: THIN, fragmentShader: FRAGMENT, uniforms: this.wide.uniforms });
    this.group = new THREE.Group();
    this.group.add(this.wide.mesh);
    this.thin = this.path = null;
  }
  get uniforms() { return this.wide.uniforms; }
  get count() { return this.path ? this.path.owner.length : 0; }
  set(path) {
    this.path = path;
    this.wide.clear();
    if (this.thin) { this.group.remove(this.thin); this.thin.geometry.dispose(); this.thin = null; }
  }
  show(isCoarse) {
    if (!this.count) return;
    if (isCoarse && !this.thin) this.makeThin();
    if (!isCoarse && !this.wide.count) { const { a, b, marks, runOrder } = this.path; this.wide.set(a, b, marks, runOrder); }
    this.wide.mesh.visible = !isCoarse;
    if (this.thin) this.thin.visible = isCoarse;
  }
  makeThin() {
    const { ends, marks, order } = this.path.thin, geometry = new THREE.BufferGeometry();
    for (const [name, values, width] of [['position', ends, 3], ['marks', marks, 4], ['order', order, 1]]) geometry.setAttribute(name, new THREE.BufferAttribute(values, width));
    this.thin = new THREE.LineSegments(geometry, this.thinMaterial);
    this.thin.frustumCulled = false;
    this.group.add(this.thin);
  }
}
