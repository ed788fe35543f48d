// An orthographic camera that orbits, moves and zooms at the pointer. Lengths look the same near and far, so a position can be read off.
// OrbitControls of three.js 111 zooms at the middle only, and knows no pointer events.

const RIGHT_ANGLE = Math.PI / 2, STEP = 40, TURN = 24, ZOOM = 0.8;
const VIEWS = {
  top: { turn: -RIGHT_ANGLE, tilt: RIGHT_ANGLE }, front: { turn: -RIGHT_ANGLE, tilt: 0 }, right: { turn: 0, tilt: 0 },
  iso: { turn: -Math.PI * 0.28, tilt: Math.PI * 0.19 },
};
const clamp = (value, low, high) => Math.min(high, Math.max(low, value));

export class Orbit {
  constructor(element, changed) {
    Object.assign(this, { element, changed, target: new THREE.Vector3(), ...VIEWS.iso });
    this.camera = new THREE.OrthographicCamera(-1, 1, 1, -1, -10_000, 10_000);
    this.camera.matrixAutoUpdate = false;
    this.scale = 1;                // mm for a point of the screen
    this.isMoving = false;
    this.isTouched = false;        // the user has moved it since it was fitted
    this.travelled = 0;            // points since the pointer was pressed
    this.pointers = new Map();
    element.addEventListener('pointerdown', event => this.press(event));
    element.addEventListener('pointermove', event => this.drag(event));
    for (const end of ['pointerup', 'pointercancel', 'lostpointercapture']) element.addEventListener(end, event => this.release(event));
    element.addEventListener('wheel', event => this.roll(event), { passive: false });
    element.addEventListener('contextmenu', event => event.preventDefault());
  }
  get size() { return [this.element.clientWidth || 1, this.element.clientHeight || 1]; }
  axes() {
    const { turn, tilt } = this, right = new THREE.Vector3(-Math.sin(turn), Math.cos(turn), 0);
    const forward = new THREE.Vector3(-Math.cos(tilt) * Math.cos(turn), -Math.cos(tilt) * Math.sin(turn), -Math.sin(tilt));
    return { forward, right, up: new THREE.Vector3().crossVectors(right, forward) };
  }
  update() {
    const [width, height] = this.size, { forward, right, up } = this.axes(), { camera, scale } = this;
    Object.assign(camera, { left: -width / 2 * scale, right: width / 2 * scale, top: height / 2 * scale, bottom: -height / 2 * scale });
    camera.position.copy(this.target).addScaledVector(forward, -2000);
    camera.matrix.makeBasis(right, up, forward.clone().negate());
    camera.matrix.setPosition(camera.position);
    camera.updateMatrixWorld(true);
    camera.matrixWorldInverse.getInverse(camera.matrixWorld);
    camera.updateProjectionMatrix();
  }
  moved(isTouched = true) {
    this.isTouched = isTouched;
    this.update();
    this.changed();
  }
  // Looks from another side. The zoom stays as it is.
  view(name) { Object.assign(this, VIEWS[name]); this.moved(this.isTouched); }
  // Shows the whole of these points, with a margin.
  fit(points, margin = 0.86) {
    if (!points.length) return;
    const [width, height] = this.size, { right, up, forward } = this.axes();
    const spans = [right, up, forward].map(along => { const all = points.map(it => along.dot(it)); return [Math.min(...all), Math.max(...all)]; });
    this.scale = Math.max((spans[0][1] - spans[0][0]) / width, (spans[1][1] - spans[1][0]) / height, 1e-4) / margin;
    this.target.set(0, 0, 0);
    [right, up, forward].forEach((along, at) => this.target.addScaledVector(along, (spans[at][0] + spans[at][1]) / 2));
    this.moved(false);
  }
  pan(x, y) {
    const { right, up } = this.axes();
    this.target.addScaledVector(right, -x * this.scale).addScaledVector(up, y * this.scale);
    this.moved();
  }
  rotate(x, y) {
    this.turn -= x * 0.008;
    this.tilt = clamp(this.tilt + y * 0.008, -RIGHT_ANGLE, RIGHT_ANGLE);
    this.moved();
  }
  zoomAt(factor, x = this.size[0] / 2, y = this.size[1] / 2) {
    const next = clamp(this.scale * factor, 1e-4, 50), change = this.scale - next, [width, height] = this.size, { right, up } = this.axes();
    this.target.addScaledVector(right, (x - width / 2) * change).addScaledVector(up, -(y - height / 2) * change);
    this.scale = next;
    this.moved();
  }
  roll(event) {
    event.preventDefault();
    const distance = clamp(event.deltaY * (event.deltaMode ? 20 : 1), -100, 100);
    this.zoomAt(Math.exp(distance * 0.0022), event.offsetX, event.offsetY);
  }
  press(event) {
    try { this.element.setPointerCapture(event.pointerId); } catch { /* The pointer is gone already. */ }
    this.pointers.set(event.pointerId, { x: event.offsetX, y: event.offsetY, turns: event.button === 0 && !(event.shiftKey || event.ctrlKey || event.metaKey) });
    this.travelled = this.pointers.size > 1 ? Infinity : 0;
  }
  drag(event) {
    const held = this.pointers.get(event.pointerId);
    if (!held) return;
    const x = event.offsetX - held.x, y = event.offsetY - held.y;
    if (this.pointers.size === 1) {
      this.travelled += Math.abs(x) + Math.abs(y);
      if (!this.isClick) { this.isMoving = true; held.turns ? this.rotate(x, y) : this.pan(x, y); }
    } else if (this.pointers.size === 2) {
      const other = [...this.pointers].find(([key]) => key !== event.pointerId)[1];
      const before = Math.hypot(held.x - other.x, held.y - other.y), after = Math.hypot(event.offsetX - other.x, event.offsetY - other.y);
      this.isMoving = true;
      this.pan(x / 2, y / 2);
      if (before > 0 && after > 0) this.zoomAt(before / after, (event.offsetX + other.x) / 2, (event.offsetY + other.y) / 2);
    }
    held.x = event.offsetX;
    held.y = event.offsetY;
  }
  release(event) {
    this.pointers.delete(event.pointerId);
    if (!this.pointers.size && this.isMoving) { this.isMoving = false; this.changed(); }
  }
  // Whether the pointer was pressed without being dragged.
  get isClick() { return this.travelled <= 3; }
  // Does what a key asks for. Returns whether it is one of the picture's keys.
  key({ key, shiftKey, ctrlKey, altKey, metaKey }) {
    const arrow = { ArrowLeft: [-1, 0], ArrowRight: [1, 0], ArrowUp: [0, -1], ArrowDown: [0, 1] }[key], zoom = { '+': ZOOM, '=': ZOOM, '-': 1 / ZOOM }[key];
    if (ctrlKey || altKey || metaKey || !(arrow || zoom)) return false;
    if (zoom) this.zoomAt(zoom);
    else if (shiftKey) this.pan(-arrow[0] * STEP, -arrow[1] * STEP);
    else this.rotate(arrow[0] * TURN, arrow[1] * TURN);
    return true;
  }
}
