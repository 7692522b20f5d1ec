// How meshes are seen: where the eye is, and the rays through its picture. Places are in a box whose longest side is 1.
"use strict";

/** The tangent of half the angle that is seen, 30 degrees. */
const FIELD = Math.tan(Math.PI / 12);
const AXES = { y: ([x, y, z]) => [x, y, z], z: ([x, y, z]) => [x, -z, y] };

const dot = (a, b) => a[0] * b[0] + a[1] * b[1] + a[2] * b[2];
const cross = (a, b) => [a[1] * b[2] - a[2] * b[1], a[2] * b[0] - a[0] * b[2], a[0] * b[1] - a[1] * b[0]];
const sum = (a, b, factor = 1) => [a[0] + factor * b[0], a[1] + factor * b[1], a[2] + factor * b[2]];

/** To the right, upward and toward the eye, as vectors of length 1. */
function axesOf(view) {
  const [sideways, upward] = [view.az * Math.PI / 180, view.el * Math.PI / 180];
  const turned = AXES[view.up];
  const right = turned([Math.cos(sideways), 0, -Math.sin(sideways)]);
  const flat = Math.cos(upward);
  const toward = turned([Math.sin(sideways) * flat, Math.sin(upward), Math.cos(sideways) * flat]);
  return [right, cross(toward, right), toward];
}

/** Half of the height that is seen, where a picture is so many times as wide as high. */
function reachOf(view, wide) {
  return view.radius * 1.04 / view.zoom / Math.min(1, wide);
}

/** The matrix, column by column, that takes places to the picture. */
function matrixOf(view, wide) {
  const [right, upward, toward] = axesOf(view);
  const reach = reachOf(view, wide);
  const far = 3 * view.radius + Math.hypot(...sum(view.at, view.centre, -1));
  const rows = [[right, 1 / (reach * wide)], [upward, 1 / reach]].map(([axis, factor]) =>
    [...axis.map((it) => it * factor), -dot(axis, view.at) * factor]);
  const depth = [...toward.map((it) => -it), dot(toward, view.at)];
  if (view.straight) {
    rows.push(depth.map((it) => it / far), [0, 0, 0, 1]);
  } else {
    const away = reach / FIELD;
    const [near, end] = [Math.max(away * 0.02, away - far), away + far];
    const [slope, shift] = [(end + near) / (end - near), -2 * end * near / (end - near)];
    const behind = [...depth.slice(0, 3), depth[3] + away];
    rows[0] = rows[0].map((it) => it * away);
    rows[1] = rows[1].map((it) => it * away);
    rows.push([...behind.slice(0, 3).map((it) => it * slope), behind[3] * slope + shift], behind);
  }
  return new Float32Array([0, 1, 2, 3].flatMap((at) => rows.map((row) => row[at])));
}

/** The ray through a place of the picture, from -1 to 1 to the right and upward: where it begins, and where it goes. */
function rayOf(view, wide, x, y) {
  const [right, upward, toward] = axesOf(view);
  const reach = reachOf(view, wide);
  const aside = sum(right.map((it) => it * x * reach * wide), upward, y * reach);
  if (view.straight) {
    return { start: sum(sum(view.at, aside), toward, 10 * view.radius), way: toward.map((it) => -it) };
  }
  const away = reach / FIELD;
  return { start: sum(view.at, toward, away), way: sum(aside, toward, -away) };
}

/** How far along a ray it meets a triangle of a table of places, or infinity. */
function meets({ start, way }, places, a, b, c) {
  const [from, first, second] = [3 * a, 3 * b, 3 * c];
  const [ax, ay, az] = [places[from], places[from + 1], places[from + 2]];
  const [ux, uy, uz] = [places[first] - ax, places[first + 1] - ay, places[first + 2] - az];
  const [vx, vy, vz] = [places[second] - ax, places[second + 1] - ay, places[second + 2] - az];
  const [nx, ny, nz] = [way[1] * vz - way[2] * vy, way[2] * vx - way[0] * vz, way[0] * vy - way[1] * vx];
  const size = ux * nx + uy * ny + uz * nz;
  if (size === 0) return Infinity;
  const [sx, sy, sz] = [start[0] - ax, start[1] - ay, start[2] - az];
  const u = (sx * nx + sy * ny + sz * nz) / size;
  if (u < 0 || u > 1) return Infinity;
  const [qx, qy, qz] = [sy * uz - sz * uy, sz * ux - sx * uz, sx * uy - sy * ux];
  const v = (way[0] * qx + way[1] * qy + way[2] * qz) / size;
  if (v < 0 || u + v > 1) return Infinity;
  const found = (vx * qx + vy * qy + vz * qz) / size;
  return found > 0 ? found : Infinity;
}

/** The view that shows a place from where its face is seen, so near that some faces around it fill the picture. */
function viewOn(view, place, normal, size) {
  const [x, y, z] = view.up === "z" ? [normal[0], normal[2], -normal[1]] : normal;
  const flat = Math.hypot(x, z);
  const sideways = flat > 1e-6 ? Math.atan2(x, z) * 180 / Math.PI : 0;
  const upward = Math.atan2(y, flat) * 180 / Math.PI;
  // A little from beside, so that depth is seen.
  return { ...view, at: place, az: sideways + 20, el: Math.max(-90, Math.min(90, upward + (upward > 60 ? -20 : 15))),
    zoom: Math.max(1, Math.min(200, view.radius / (6 * size || 1))) };
}
