// Meshes as a page has them: places, faces and what is known of each, in typed arrays that are read once.
"use strict";

/** A colour as one number, whose last byte says whether it is striped. */
const packed = ([red, green, blue], striped = false) =>
  (red | green << 8 | blue << 16 | (striped ? 128 : 255) << 24) >>> 0;

const PLAIN = packed([222, 226, 230]);
const INVERTED = packed([208, 32, 32], true);
const POOR = packed([240, 140, 40]);
const CHOSEN = packed([20, 70, 200]);
const VIRIDIS = [[68, 1, 84], [71, 44, 122], [59, 81, 139], [44, 113, 142], [33, 144, 141], [39, 173, 129],
  [92, 200, 99], [170, 220, 50], [253, 231, 37]];

/** The numbers that stand in base64. */
function numbersIn(text, Kind) {
  if (Uint8Array.fromBase64) return new Kind(Uint8Array.fromBase64(text).buffer);
  const letters = atob(text);
  const bytes = new Uint8Array(letters.length);
  for (let at = 0; at < letters.length; at++) bytes[at] = letters.charCodeAt(at);
  return new Kind(bytes.buffer);
}

/** Numbers of 16 bits as parts of the greatest. */
function shares(steps) {
  const found = new Float32Array(steps.length);
  for (let at = 0; at < steps.length; at++) found[at] = steps[at] / 65535;
  return found;
}

/** The colours of values from 0 to 1, in so many steps. */
const STEPS = 255;
const SCALE = Uint32Array.from({ length: STEPS + 1 }, (_, step) => {
  const at = step / STEPS * (VIRIDIS.length - 1);
  const [low, high] = [VIRIDIS[Math.floor(at)], VIRIDIS[Math.ceil(at)]];
  return packed(low.map((it, part) => Math.round(it + (high[part] - it) * (at % 1))));
});
const viridis = (value) => SCALE[Math.round(STEPS * Math.max(0, Math.min(1, value)))];

/** A mesh as the page has it. Its faces are drawn as pieces of four corners, mostly one a face. */
class Model {
  constructor(told, palette) {
    this.label = told.label;
    this.faces = told.faces;
    this.palette = palette.map((it) => packed(it));
    const raw = numbersIn(told.points, told.bits === 16 ? Uint16Array : Float32Array);
    this.places = told.bits === 16 ? shares(raw) : raw;
    this.corners = numbersIn(told.corners, Uint32Array);
    this.kinds = numbersIn(told.kinds, Uint8Array);
    this.count = this.corners.length / 4;
    this.faceOf = told.face_of ? numbersIn(told.face_of, Uint32Array) : null;
    this.numbers = told.numbers ? numbersIn(told.numbers, Uint32Array) : null;
    this.tints = told.tints ? numbersIn(told.tints, Uint8Array) : null;
    this.patches = told.patches ? numbersIn(told.patches, Uint32Array) : null;
    this.jacobians = told.jacobians ? numbersIn(told.jacobians, Float32Array) : null;
    this.distances = told.distances ? numbersIn(told.distances, Float32Array) : null;
    this.homes = told.homes ? numbersIn(told.homes, Uint32Array) : null;
    this.dots = numbersIn(told.dots, Uint32Array);
    this.atFault = new Set(told.at_fault);
  }

  /** The face of a piece, from 0. */
  face(piece) {
    return this.faceOf ? this.faceOf[piece] : piece;
  }

  /** The first piece of a face. */
  piece(face) {
    return this.faceOf ? this.faceOf.indexOf(face) : face;
  }

  /** The number that a face has in its file, from 1. */
  number(face) {
    return (this.numbers ? this.numbers[face] : face) + 1;
  }

  /** The colour of a face. */
  colourOf(face, mode, greatest) {
    const bad = this.jacobians ? this.jacobians[face] : 1;
    if (this.atFault.size && this.atFault.has(face)) return INVERTED;
    if (mode === "distance" && this.distances) return viridis(this.distances[face] / (greatest || 1));
    if (bad < 0) return INVERTED;
    if (mode === "jacobian" && this.jacobians) return viridis(bad);
    if (mode === "patches" && this.tints) return bad < 0.2 ? POOR : this.palette[this.tints[face]];
    return PLAIN;
  }

  /** The colour of each piece. */
  colours(mode, greatest, chosen) {
    const words = new Uint32Array(this.count);
    for (let piece = 0; piece < this.count; piece++) {
      const face = this.face(piece);
      words[piece] = chosen.size && chosen.has(face) ? CHOSEN : this.colourOf(face, mode, greatest);
    }
    return words;
  }

  /** (x, y, z) of a corner of a piece. */
  place(piece, corner) {
    const at = 3 * this.corners[4 * piece + corner];
    return [this.places[at], this.places[at + 1], this.places[at + 2]];
  }

  /** The middle of a piece, its normal of length 1, and how large it is. */
  spot(piece) {
    const [a, b, c, d] = [0, 1, 2, 3].map((it) => this.place(piece, it));
    const [one, other] = [sum(c, a, -1), sum(d, b, -1)];
    const normal = cross(one, other);
    const size = Math.hypot(...normal);
    return { middle: a.map((it, at) => (it + b[at] + c[at] + d[at]) / 4),
      normal: size > 0 ? normal.map((it) => it / size) : [0, 0, 1],
      size: Math.max(Math.hypot(...one), Math.hypot(...other)) };
  }

  /** The face that a ray meets first, or -1. */
  hit(ray) {
    let [found, nearest] = [-1, Infinity];
    for (let piece = 0; piece < this.count; piece++) {
      const at = 4 * piece;
      const [a, c] = [this.corners[at], this.corners[at + 2]];
      const away = Math.min(meets(ray, this.places, a, this.corners[at + 1], c),
        meets(ray, this.places, a, c, this.corners[at + 3]));
      if (away < nearest) [found, nearest] = [piece, away];
    }
    return found < 0 ? -1 : this.face(found);
  }
}

/** A model has no more pieces than this where it is drawn in the quick way. */
const FEW = 4000;
/** In so many cells a side the points of a larger one are put together, or in fewer. */
const CELLS = 128;

/** Few pieces that look about like those of a model, where a place is looked at and so much is seen around it. */
function fewOf(model, place, reach) {
  for (let cells = CELLS; ;) {
    const few = clustered(model, cells, place, reach);
    const count = few.pieces.length;
    if (count <= FEW || cells < 2) return few;
    // A surface has about as many pieces as the square of the cells.
    cells = Math.max(1, Math.floor(0.95 * cells * Math.sqrt(FEW / count)));
  }
}

/** A model whose points are the means of those in each of cells ^ 3 cells, which are larger away from a place: the
 * places, the corners of the pieces that still have an area, and which pieces these are. */
function clustered({ places, corners, count }, cells, [middleX, middleY, middleZ], reach) {
  const cellAt = (away) => Math.floor((0.5 + 0.5 * away / (reach + Math.abs(away))) * cells);
  const home = new Uint32Array(places.length / 3);
  const known = new Int32Array((cells + 1) ** 3).fill(-1);
  const sums = new Float32Array(places.length);
  const sizes = new Uint32Array(home.length);
  let found = 0;
  for (let point = 0; point < home.length; point++) {
    const at = 3 * point;
    const x = places[at];
    const y = places[at + 1];
    const z = places[at + 2];
    const column = cellAt(x - middleX) * (cells + 1) + cellAt(y - middleY);
    const cell = column * (cells + 1) + cellAt(z - middleZ);
    if (known[cell] < 0) known[cell] = found++;
    const to = home[point] = known[cell];
    sums[3 * to] += x;
    sums[3 * to + 1] += y;
    sums[3 * to + 2] += z;
    sizes[to] += 1;
  }
  for (let at = 0; at < 3 * found; at++) sums[at] /= sizes[Math.floor(at / 3)];
  const pieces = new Uint32Array(count);
  let kept = 0;
  for (let piece = 0; piece < count; piece++) {
    const at = 4 * piece;
    const a = home[corners[at]];
    const b = home[corners[at + 1]];
    const c = home[corners[at + 2]];
    const d = home[corners[at + 3]];
    if (a !== c && ((b !== a && b !== c) || (d !== a && d !== c))) pieces[kept++] = piece;
  }
  const ends = new Uint32Array(4 * kept);
  for (let at = 0; at < 4 * kept; at++) ends[at] = home[corners[4 * pieces[at >> 2] + at % 4]];
  return { places: sums.subarray(0, 3 * found), corners: ends, pieces: pieces.subarray(0, kept) };
}
