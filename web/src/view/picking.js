// The command whose segment is nearest to a point of the picture, or -1 if none is near.

const NEAR = 64, RAPID = 9;   // points squared; a rapid counts as farther away

export function pick(path, orbit, x, y, hasRapids) {
  orbit.update();
  const { right, up } = orbit.axes(), [width, height] = orbit.size, { target, scale } = orbit, { a, b, marks, owner } = path;
  const ux = right.x / scale, uy = right.y / scale, uz = right.z / scale, vx = up.x / scale, vy = up.y / scale, vz = up.z / scale;
  const u = x - width / 2 + target.dot(right) / scale, v = height / 2 - y + target.dot(up) / scale;
  let nearest = NEAR, found = -1;
  for (let at = 0, i = 0; at < owner.length; at++, i += 3) {
    if (marks[at * 4 + 2] && !hasRapids) continue;
    const px = a[i] * ux + a[i + 1] * uy + a[i + 2] * uz - u, py = a[i] * vx + a[i + 1] * vy + a[i + 2] * vz - v;
    const dx = b[i] * ux + b[i + 1] * uy + b[i + 2] * uz - u - px, dy = b[i] * vx + b[i + 1] * vy + b[i + 2] * vz - v - py;
    const span = dx * dx + dy * dy, part = span > 0 ? Math.min(1, Math.max(0, -(px * dx + py * dy) / span)) : 0;
    const distance = (px + dx * part) ** 2 + (py + dy * part) ** 2 + (marks[at * 4 + 2] ? RAPID : 0);
    if (distance < nearest) { nearest = distance; found = at; }
  }
  return found < 0 ? -1 : owner[found];
}
