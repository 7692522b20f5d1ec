// Meshes drawn with WebGL: what the graphics card has of them, and the programs that draw it.
"use strict";

/** With more faces in all, borders are jagged. */
const MANY = 20000;
/** A mesh with more dots has none of them while it moves. */
const FEW_DOTS = 500;

const FACE_VERTICES = `#version 300 es
layout(location = 0) in vec4 place;
layout(location = 1) in vec4 sides;
layout(location = 2) in vec4 normal;
layout(location = 3) in vec4 colour;
uniform mat4 matrix;
uniform vec3 toward;
flat out vec4 kinds;
flat out vec4 paint;
flat out float facing;
out vec2 within;
void main() {
  int corner = int(place.w + 0.5);
  within = vec2(corner == 1 || corner == 2, corner >= 2);
  kinds = sides;
  paint = colour;
  facing = abs(dot(normal.xyz, toward));
  gl_Position = matrix * vec4(place.xyz, 1.0);
}`;

const FACE_PIXELS = `#version 300 es
precision highp float;
flat in vec4 kinds;
flat in vec4 paint;
flat in float facing;
in vec2 within;
uniform vec4 shown;  // how strong plain edges, borders of patches and edges that stay are, and how wide a pixel is
out vec4 pixel;
float line(float away, float kind) {
  float half_width = kind < 0.5 ? 0.45 : kind < 1.5 ? 0.9 : 1.4;
  return kind > 2.5 ? 0.0 : clamp(half_width * shown.w + 0.5 - away, 0.0, 1.0);
}
void main() {
  float light = gl_FrontFacing ? 0.72 + 0.28 * facing : 0.5 + 0.14 * facing;
  vec3 mixed = paint.rgb * light;
  bool dark = dot(paint.rgb, vec3(0.3, 0.6, 0.1)) < 0.25;
  bool inStripe = mod(gl_FragCoord.x + gl_FragCoord.y, 8.0 * shown.w) < 3.0 * shown.w;
  if (paint.a < 0.9 && inStripe) mixed = vec3(0.16, 0.0, 0.0);
  vec2 step = max(vec2(length(vec2(dFdx(within.x), dFdy(within.x))), length(vec2(dFdx(within.y), dFdy(within.y)))),
                  vec2(1e-6));
  vec4 away = vec4(within.y / step.y, (1.0 - within.x) / step.x, (1.0 - within.y) / step.y, within.x / step.x);
  float size = 1.0 / max(step.x, step.y) / shown.w;
  vec3 strong = vec3(0.55 * smoothstep(3.0, 8.0, size), smoothstep(0.8, 3.0, size), 1.0) * shown.xyz;
  for (int side = 0; side < 4; side++) {
    float kind = kinds[side];
    bool stays = kind > 1.5 && strong.z > 0.0;
    bool parts = kind > 0.5 && strong.y > 0.0;
    float drawn = stays ? strong.z : parts ? strong.y : strong.x;
    float as = kind > 2.5 ? 3.0 : stays ? 2.0 : parts ? 1.0 : 0.0;
    vec3 ink = as > 1.5 ? vec3(0.08, 0.27, 0.85) : dark ? vec3(0.78) : vec3(0.13);
    mixed = mix(mixed, ink, drawn * line(away[side], as));
  }
  pixel = vec4(mixed, 1.0);
}`;

const QUICK_VERTICES = `#version 300 es
layout(location = 0) in vec4 place;
layout(location = 2) in vec4 normal;
layout(location = 3) in vec4 colour;
uniform mat4 matrix;
uniform vec3 toward;
flat out vec3 paint;
void main() {
  float facing = dot(normal.xyz, toward);
  paint = colour.rgb * (facing >= 0.0 ? 0.72 + 0.28 * facing : 0.5 - 0.14 * facing);
  gl_Position = matrix * vec4(place.xyz, 1.0);
}`;

const QUICK_PIXELS = `#version 300 es
precision mediump float;
flat in vec3 paint;
out vec4 pixel;
void main() {
  pixel = vec4(paint, 1.0);
}`;

const DOT_VERTICES = `#version 300 es
layout(location = 0) in vec4 place;
uniform mat4 matrix;
uniform float size;
flat out float kind;
void main() {
  kind = place.w;
  gl_Position = matrix * vec4(place.xyz, 1.0);
  gl_Position.z -= 0.004 * gl_Position.w;
  gl_PointSize = size * (kind > 1.5 ? 1.5 : 1.0);
}`;

const DOT_PIXELS = `#version 300 es
precision highp float;
flat in float kind;
out vec4 pixel;
void main() {
  vec2 at = gl_PointCoord * 2.0 - 1.0;
  // A triangle for fewer faces, a square for more, a disc for a place at fault.
  float inside = kind < 0.5 ? min(0.75 - at.y, 0.5 * at.y + 0.55 - abs(at.x)) :
    kind < 1.5 ? 0.78 - max(abs(at.x), abs(at.y)) : 1.0 - length(at);
  if (inside < 0.0) discard;
  vec3 ink = kind < 0.5 ? vec3(0.90, 0.38, 0.0) : kind < 1.5 ? vec3(0.37, 0.24, 0.60) : vec3(0.82, 0.13, 0.13);
  pixel = vec4(inside < 0.16 ? vec3(1.0) : ink, 1.0);
}`;

function programOf(gl, vertices, pixels) {
  const program = gl.createProgram();
  for (const [kind, text] of [[gl.VERTEX_SHADER, vertices], [gl.FRAGMENT_SHADER, pixels]]) {
    const shader = gl.createShader(kind);
    gl.shaderSource(shader, text);
    gl.compileShader(shader);
    if (!gl.getShaderParameter(shader, gl.COMPILE_STATUS)) throw new Error(gl.getShaderInfoLog(shader));
    gl.attachShader(program, shader);
  }
  gl.linkProgram(program);
  if (!gl.getProgramParameter(program, gl.LINK_STATUS)) throw new Error(gl.getProgramInfoLog(program));
  const names = ["matrix", "toward", "shown", "size"];
  return { program, ...Object.fromEntries(names.map((it) => [it, gl.getUniformLocation(program, it)])) };
}

function attribute(gl, at, data, parts, kind, isPart) {
  const buffer = gl.createBuffer();
  gl.bindBuffer(gl.ARRAY_BUFFER, buffer);
  gl.bufferData(gl.ARRAY_BUFFER, data, gl.STATIC_DRAW);
  gl.enableVertexAttribArray(at);
  gl.vertexAttribPointer(at, parts, kind, isPart, 0, 0);
  return buffer;
}

/** The normal of a piece whose corners stand at a place of a table, as bytes at the same place of another. */
function normalInto(normals, places, at) {
  const ax = places[at + 8] - places[at];
  const ay = places[at + 9] - places[at + 1];
  const az = places[at + 10] - places[at + 2];
  const bx = places[at + 12] - places[at + 4];
  const by = places[at + 13] - places[at + 5];
  const bz = places[at + 14] - places[at + 6];
  const x = ay * bz - az * by;
  const y = az * bx - ax * bz;
  const z = ax * by - ay * bx;
  const size = 127 / (Math.sqrt(x * x + y * y + z * z) || 1);
  for (let corner = 0; corner < 16; corner += 4) {
    normals[at + corner] = x * size;
    normals[at + corner + 1] = y * size;
    normals[at + corner + 2] = z * size;
  }
}

const BENDS = [0, 1, 2, 0, 2, 3];

/** Pieces in the memory of the graphics card. */
class Pieces {
  /** `kinds` has what each side is; `pieces` has which of a model's pieces these are, if they are not all. */
  constructor(gl, places, corners, kinds, pieces = null) {
    this.gl = gl;
    this.count = corners.length / 4;
    this.pieces = pieces;
    this.array = gl.createVertexArray();
    gl.bindVertexArray(this.array);
    const spread = new Float32Array(4 * corners.length);
    const sides = new Uint32Array(corners.length);
    const normals = new Int8Array(4 * corners.length);
    const order = new Uint32Array(6 * this.count);
    for (let at = 0; at < corners.length; at++) {
      const from = 3 * corners[at];
      for (let axis = 0; axis < 3; axis++) spread[4 * at + axis] = places[from + axis];
      spread[4 * at + 3] = at % 4;
      sides[at] = kinds ? kinds[at >> 2] : 0;
    }
    for (let piece = 0; piece < this.count; piece++) {
      normalInto(normals, spread, 16 * piece);
      for (let at = 0; at < 6; at++) order[6 * piece + at] = 4 * piece + BENDS[at];
    }
    this.rest = [attribute(gl, 0, spread, 4, gl.FLOAT, false), attribute(gl, 1, sides, 4, gl.UNSIGNED_BYTE, false),
      attribute(gl, 2, normals, 4, gl.BYTE, true)];
    this.paint = attribute(gl, 3, sides, 4, gl.UNSIGNED_BYTE, true);
    this.colours = null;
    this.order = gl.createBuffer();
    gl.bindBuffer(gl.ELEMENT_ARRAY_BUFFER, this.order);
    gl.bufferData(gl.ELEMENT_ARRAY_BUFFER, order, gl.STATIC_DRAW);
  }

  /** Gives each the colour that its piece of the model has, if it has another. */
  colour(colours) {
    if (this.colours === colours) return;
    this.colours = colours;
    const words = new Uint32Array(4 * this.count);
    for (let at = 0; at < words.length; at++) words[at] = colours[this.pieces ? this.pieces[at >> 2] : at >> 2];
    this.gl.bindBuffer(this.gl.ARRAY_BUFFER, this.paint);
    this.gl.bufferSubData(this.gl.ARRAY_BUFFER, 0, words);
  }

  /** Gives the memory back. */
  free() {
    for (const it of [...this.rest, this.paint, this.order]) this.gl.deleteBuffer(it);
    this.gl.deleteVertexArray(this.array);
  }

  draw() {
    this.gl.bindVertexArray(this.array);
    this.gl.drawElements(this.gl.TRIANGLES, 6 * this.count, this.gl.UNSIGNED_INT, 0);
  }
}

/** Where so many times more or less is seen, or the place that is looked at has moved by such a part of what is seen,
 * other pieces are the few. */
const NEARER = 1.5;
const ASIDE = 0.3;

/** A model as it is drawn: as it is, or with few pieces. Each is made when it is drawn. */
class Drawn {
  constructor(gl, model) {
    this.gl = gl;
    this.model = model;
    this.whole = this.few = null;
    /** For what the few pieces were made. */
    this.seen = { at: [0, 0, 0], reach: 0 };
    this.colours = new Uint32Array(model.count);
    this.points = gl.createVertexArray();
    gl.bindVertexArray(this.points);
    this.dots = model.dots.length / 2;
    const dots = new Float32Array(4 * this.dots);
    for (let at = 0; at < this.dots; at++) {
      const from = 3 * model.dots[2 * at];
      for (let axis = 0; axis < 3; axis++) dots[4 * at + axis] = model.places[from + axis];
      dots[4 * at + 3] = model.dots[2 * at + 1];
    }
    attribute(gl, 0, dots, 4, gl.FLOAT, false);
  }

  /** What is drawn, in its colours, where a place is looked at and so much is seen around it. */
  faces(isQuick, at, reach) {
    const { gl, model, seen } = this;
    const isFew = isQuick && model.count > FEW;
    const isOther = reach > NEARER * seen.reach || NEARER * reach < seen.reach ||
      Math.hypot(...sum(at, seen.at, -1)) > ASIDE * reach;
    if (isFew && isOther) {
      const few = fewOf(model, at, reach);
      if (this.few) this.few.free();
      this.few = new Pieces(gl, few.places, few.corners, null, few.pieces);
      this.seen = { at, reach };
    }
    if (!isFew && !this.whole) {
      this.whole = new Pieces(gl, model.places, model.corners, new Uint32Array(model.kinds.buffer));
    }
    const faces = isFew ? this.few : this.whole;
    faces.colour(this.colours);
    return faces;
  }
}

/** The pictures of a page. */
class Painter {
  constructor(canvas, isLarge) {
    this.gl = canvas.getContext("webgl2", { antialias: !isLarge, alpha: true });
    if (!this.gl) throw new Error("no WebGL 2 here");
    this.programs = new Map();
    this.gl.enable(this.gl.DEPTH_TEST);
  }

  /** The program of two texts, which is made when it is first used. */
  program(vertices, pixels) {
    if (!this.programs.has(vertices)) this.programs.set(vertices, programOf(this.gl, vertices, pixels));
    return this.programs.get(vertices);
  }

  clear() {
    this.gl.disable(this.gl.SCISSOR_TEST);
    this.gl.clearColor(0, 0, 0, 0);
    this.gl.clear(this.gl.COLOR_BUFFER_BIT | this.gl.DEPTH_BUFFER_BIT);
  }

  /** Calls when all is drawn that was asked for. */
  finished(call) {
    const { gl } = this;
    const end = gl.fenceSync(gl.SYNC_GPU_COMMANDS_COMPLETE, 0);
    gl.flush();
    const look = () => {
      if (gl.isContextLost()) return;
      if (gl.getSyncParameter(end, gl.SYNC_STATUS) !== gl.SIGNALED) {
        setTimeout(look, 5);
        return;
      }
      gl.deleteSync(end);
      call();
    };
    setTimeout(look);
  }

  /** Draws into a frame {x, y, wide, high}, of which what is cut off by `from` and `to`, from 0 to 1, stays empty; on
   * wish the quick way, with few faces and without edges. */
  draw(drawn, view, frame, [from, to], shown, wide, isQuick = false) {
    const { gl } = this;
    const program = isQuick ? this.program(QUICK_VERTICES, QUICK_PIXELS) : this.program(FACE_VERTICES, FACE_PIXELS);
    const faces = drawn.faces(isQuick, view.at, reachOf(view, frame.wide / frame.high));
    gl.viewport(frame.x, frame.y, frame.wide, frame.high);
    gl.enable(gl.SCISSOR_TEST);
    const [left, right] = [from, to].map((it) => Math.round(frame.x + it * frame.wide));
    gl.scissor(left, frame.y, right - left, frame.high);
    const matrix = matrixOf(view, frame.wide / frame.high);
    gl.useProgram(program.program);
    gl.uniformMatrix4fv(program.matrix, false, matrix);
    gl.uniform3fv(program.toward, axesOf(view)[2]);
    gl.uniform4f(program.shown, +shown.wire, +shown.borders, +shown.stay, wide);
    faces.draw();
    if (!shown.points || !drawn.dots || (isQuick && drawn.dots > FEW_DOTS)) return faces.count;
    const dots = this.program(DOT_VERTICES, DOT_PIXELS);
    gl.useProgram(dots.program);
    gl.uniformMatrix4fv(dots.matrix, false, matrix);
    gl.uniform1f(dots.size, 11 * wide);
    gl.bindVertexArray(drawn.points);
    gl.drawArrays(gl.POINTS, 0, drawn.dots);
    return faces.count;
  }
}
