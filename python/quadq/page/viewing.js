// The part of a page that can be turned: its controls, and what mouse, fingers, keys and the page's address ask of it.
"use strict";

const FLAGS = ["wire", "borders", "stay", "points"];
const STEP = 7.5;
/** Where a picture takes more milliseconds, what moves is drawn in the quick way: few faces, no edges, and so many
 * pixels for each of the screen along a side. After so many milliseconds of rest it is drawn well. */
const BUDGET = 60;
const COARSE = 0.5;
const REST = 300;

class Viewer {
  constructor(told, root) {
    this.told = told;
    this.root = root;
    this.canvas = root.querySelector("canvas");
    this.models = told.meshes.map((it) => new Model(it, told.palette));
    const isLarge = this.models.reduce((count, it) => count + it.count, 0) > MANY;
    this.painter = new Painter(this.canvas, isLarge);
    /** How many milliseconds the last picture took that was drawn well; of a large mesh it is thought to be long. */
    this.cost = isLarge ? Infinity : 0;
    this.painted = "";
    this.drawn = this.models.map((it) => new Drawn(this.painter.gl, it));
    this.first = { ...told.view, zoom: 1, at: told.view.centre, straight: false };
    this.view = this.first;
    this.shown = { wire: true, borders: true, stay: true, points: true };
    this.colours = told.meshes[0].tints ? "patches" : "plain";
    this.over = null;
    this.chosen = this.models.map(() => new Set());
    this.picked = null;
    this.waiting = false;
    this.fingers = new Map();
    /** How many pictures were drawn, how many pieces the last has, and how many pixels for each of the screen along a
     * side. */
    this.pictures = this.pieces = 0;
    this.scale = 1;
    this.controls();
    this.events();
    this.readAddress();
  }

  /** The control of a name. */
  control(name) {
    return this.root.querySelector(`[name="${name}"]`);
  }

  controls() {
    this.root.hidden = false;
    for (const only of this.root.querySelectorAll("[data-needs]")) {
      only.hidden = !this.told.meshes.some((it) => it[only.dataset.needs]);
    }
    for (const pair of this.root.querySelectorAll("[data-pair]")) pair.hidden = this.models.length < 2;
    this.root.querySelector("[data-tick]").textContent = this.told.greatest ? this.told.greatest.toPrecision(3) : "0";
    this.root.addEventListener("input", (event) => this.asked(event.target, event.target.name === "over"));
    this.root.addEventListener("change", (event) => this.asked(event.target, false));
    this.root.addEventListener("submit", (event) => {
      event.preventDefault();
      const model = this.models.length > 1 ? +this.control("which").value : 0;
      this.pick(model, this.faceOf(model, +this.control("face").value), true);
    });
    for (const button of this.root.querySelectorAll("[data-from]")) {
      button.addEventListener("click", () => this.look(button.dataset.from));
    }
    for (const link of document.querySelectorAll("a[data-mesh]")) {
      link.addEventListener("click", (event) => {
        event.preventDefault();
        if (link.dataset.colours) this.colours = link.dataset.colours;
        this.pick(+link.dataset.mesh, +link.dataset.face, true);
        this.root.scrollIntoView({ block: "nearest" });
        this.canvas.focus({ preventScroll: true });
      });
    }
  }

  /** The face that has a number in its file, or -1. */
  faceOf(model, number) {
    const numbers = this.models[model].numbers;
    if (numbers) return numbers.indexOf(number - 1);
    return number >= 1 && number <= this.models[model].faces ? number - 1 : -1;
  }

  asked(control, isMoving) {
    if (control.name === "colours") this.colours = control.value;
    if (FLAGS.includes(control.name)) this.shown[control.name] = control.checked;
    if (control.name === "straight") this.view = { ...this.view, straight: control.checked };
    if (control.name === "together") this.over = control.checked ? 0.5 : null;
    if (control.name === "over") this.over = +control.value;
    this.change(isMoving);
  }

  look(from) {
    const sides = { front: [0, 0], right: [90, 0], top: [0, 90], back: [180, 0] };
    if (from === "first") {
      this.view = { ...this.first, straight: this.view.straight };
    } else {
      const [az, el] = sides[from];
      this.view = { ...this.view, az, el };
    }
    this.change();
  }

  /** Draws anew when the page next shows a picture, and writes down how things are, if nothing moves. */
  change(isMoving = false) {
    if (!isMoving) this.settle();
    clearTimeout(this.rest);
    // A page opens with a quick picture too.
    this.isQuick = (isMoving || !this.pictures) && this.cost > BUDGET;
    if (this.waiting) return;
    this.waiting = true;
    requestAnimationFrame(() => {
      this.waiting = false;
      this.draw(this.isQuick);
    });
  }

  settle() {
    for (const button of this.root.querySelectorAll("[name=colours]")) button.checked = button.value === this.colours;
    for (const flag of FLAGS) this.control(flag).checked = this.shown[flag];
    this.control("straight").checked = this.view.straight;
    if (this.models.length > 1) {
      this.control("together").checked = this.over !== null;
      this.control("over").disabled = this.over === null;
      if (this.over !== null) this.control("over").value = this.over;
    }
    for (const scale of this.root.querySelectorAll("[data-scale]")) scale.hidden = scale.dataset.scale !== this.colours;
    const wanted = [this.colours, ...this.chosen.map((it) => [...it])].join(";");
    if (this.painted !== wanted) {
      this.models.forEach((model, at) => {
        this.drawn[at].colours = model.colours(this.colours, this.told.greatest, this.chosen[at]);
      });
    }
    this.painted = wanted;
    this.writeAddress();
  }

  /** Where each mesh is shown, in pixels of the picture, and which part of that from left to right. */
  panes() {
    const [wide, high] = [this.canvas.width, this.canvas.height];
    if (this.models.length < 2) return [{ x: 0, y: 0, wide, high, part: [0, 1] }];
    if (this.over !== null) {
      return [[0, this.over], [this.over, 1]].map((part) => ({ x: 0, y: 0, wide, high, part }));
    }
    if (wide < high) {
      const half = Math.floor(high / 2);
      return [{ x: 0, y: high - half, wide, high: half, part: [0, 1] }, { x: 0, y: 0, wide, high: half, part: [0, 1] }];
    }
    const half = Math.floor(wide / 2);
    return [{ x: 0, y: 0, wide: half, high, part: [0, 1] }, { x: wide - half, y: 0, wide: half, high, part: [0, 1] }];
  }

  draw(isQuick = false) {
    clearTimeout(this.rest);
    this.scale = isQuick ? COARSE : Math.min(2, window.devicePixelRatio || 1);
    const box = this.canvas.getBoundingClientRect();
    const [wide, high] = [box.width, box.height].map((it) => Math.max(2, Math.round(it * this.scale)));
    if (this.canvas.width !== wide || this.canvas.height !== high) {
      this.canvas.width = wide;
      this.canvas.height = high;
    }
    this.painter.clear();
    this.pieces = 0;
    this.panes().forEach((frame, at) => {
      this.pieces += this.painter.draw(this.drawn[at], this.view, frame, frame.part, this.shown, this.scale, isQuick);
    });
    const line = this.root.querySelector("[data-line]");
    line.hidden = this.over === null;
    if (this.over !== null) line.style.left = `${100 * this.over}%`;
    this.pictures += 1;
    // What is made when it is first drawn is made by now.
    const { pictures } = this;
    const begun = performance.now();
    this.painter.finished(() => {
      if (!isQuick) this.cost = performance.now() - begun;
      else if (this.pictures === pictures) this.rest = setTimeout(() => this.fingers.size || this.change(), REST);
    });
  }

  /** The mesh below a place of the picture, and the ray through it. */
  under(event) {
    const box = this.canvas.getBoundingClientRect();
    const [across, up] = [(event.clientX - box.left) / box.width, 1 - (event.clientY - box.top) / box.height];
    const [x, y] = [across * this.canvas.width, up * this.canvas.height];
    const at = this.panes().findIndex(({ x: left, y: low, wide, high, part }) =>
      x >= left + part[0] * wide && x <= left + part[1] * wide && y >= low && y <= low + high);
    if (at < 0) return { at: 0, ray: null };
    const frame = this.panes()[at];
    const ray = rayOf(this.view, frame.wide / frame.high, 2 * (x - frame.x) / frame.wide - 1,
      2 * (y - frame.y) / frame.high - 1);
    return { at, ray };
  }

  /** Chooses a face of a mesh, says what is known of it, and on wish turns the view to it. */
  pick(at, face, isShown) {
    this.chosen = this.models.map(() => new Set());
    this.picked = face >= 0 ? [at, face] : null;
    const said = this.root.querySelector("output");
    if (face < 0) {
      said.textContent = isShown ? "There is no face of this number here." : "";
      this.change();
      return;
    }
    this.chosen[at].add(face);
    said.textContent = this.words(at, face);
    if (isShown) {
      const spot = this.models[at].spot(this.models[at].piece(face));
      this.view = viewOn(this.view, spot.middle, spot.normal, spot.size);
    }
    this.change();
  }

  /** What is known of a face. What it was made of, or what was made of it, is chosen with it. */
  words(at, face) {
    const model = this.models[at];
    const found = [`${model.label}: face ${model.number(face)}`];
    if (model.jacobians) found.push(`scaled Jacobian ${model.jacobians[face].toFixed(3)}`);
    if (model.distances) found.push(`up to ${model.distances[face].toPrecision(3)} from the other mesh`);
    if (model.patches) found.push(`patch ${model.patches[face] + 1}`);
    const homes = this.models.length > 1 ? this.models[1].homes : null;
    if (homes && at === 1) {
      this.chosen[0].add(homes[face]);
      found.push(`it lies in old face ${this.models[0].number(homes[face])}`);
    } else if (homes && at === 0) {
      homes.forEach((home, it) => home === face && this.chosen[1].add(it));
      found.push(`new faces that lie in it: ${this.chosen[1].size}`);
    }
    return found.join(" · ");
  }

  events() {
    const { canvas } = this;
    const { fingers } = this;
    let way = 0;
    canvas.addEventListener("pointerdown", (event) => {
      canvas.setPointerCapture(event.pointerId);
      fingers.set(event.pointerId, event);
      way = fingers.size > 1 ? Infinity : 0;
      canvas.focus({ preventScroll: true });
    });
    canvas.addEventListener("pointermove", (event) => {
      const before = fingers.get(event.pointerId);
      if (!before) return;
      const moved = [event.clientX - before.clientX, event.clientY - before.clientY];
      way += Math.abs(moved[0]) + Math.abs(moved[1]);
      if (fingers.size > 1) this.pinch(fingers, event, moved);
      else if (event.buttons & 6 || event.shiftKey) this.push(...moved);
      else if (way > 3) this.turn(-moved[0] * 0.4, moved[1] * 0.4);
      fingers.set(event.pointerId, event);
    });
    const end = (event) => {
      if (!fingers.delete(event.pointerId)) return;
      if (event.type === "pointerup" && way <= 3 && event.button === 0) {
        const { at, ray } = this.under(event);
        this.pick(at, ray ? this.models[at].hit(ray) : -1, false);
      }
      this.writeAddress();
      if (this.isQuick) this.change(true);
    };
    canvas.addEventListener("pointerup", end);
    canvas.addEventListener("pointercancel", end);
    canvas.addEventListener("contextmenu", (event) => event.preventDefault());
    canvas.addEventListener("wheel", (event) => {
      event.preventDefault();
      this.zoom(Math.exp(-event.deltaY * (event.deltaMode ? 0.05 : 0.0015)));
    }, { passive: false });
    canvas.addEventListener("keydown", (event) => this.key(event));
    canvas.addEventListener("webglcontextlost", () => { this.root.hidden = true; });
    window.addEventListener("hashchange", () => this.readAddress());
    new ResizeObserver(() => this.change(true)).observe(canvas);
  }

  turn(sideways, upward) {
    const el = Math.max(-90, Math.min(90, this.view.el + upward));
    this.view = { ...this.view, az: (this.view.az + sideways) % 360, el };
    this.change(true);
  }

  zoom(factor) {
    this.view = { ...this.view, zoom: Math.max(0.2, Math.min(500, this.view.zoom * factor)) };
    this.change(true);
  }

  /** Moves what is seen by so many pixels of the screen. */
  push(x, y) {
    const frame = this.panes()[0];
    const size = 2 * reachOf(this.view, frame.wide / frame.high) * this.scale / frame.high;
    const [right, upward] = axesOf(this.view);
    this.view = { ...this.view, at: sum(sum(this.view.at, right, -x * size), upward, y * size) };
    this.change(true);
  }

  pinch(fingers, event, moved) {
    const other = [...fingers.values()].find((it) => it.pointerId !== event.pointerId);
    const before = fingers.get(event.pointerId);
    const away = (it) => Math.hypot(it.clientX - other.clientX, it.clientY - other.clientY) || 1;
    this.zoom(away(event) / away(before));
    this.push(moved[0] / 2, moved[1] / 2);
  }

  key(event) {
    const arrows = { ArrowLeft: [-1, 0], ArrowRight: [1, 0], ArrowUp: [0, 1], ArrowDown: [0, -1] };
    const toggles = { w: "wire", b: "borders", e: "stay", i: "points" };
    const colours = { 1: "patches", 2: "jacobian", 3: "distance", 4: "plain" };
    if (event.ctrlKey || event.metaKey || event.altKey) return;
    if (arrows[event.key]) {
      const [x, y] = arrows[event.key];
      if (event.shiftKey) this.push(-x * 20, y * 20);
      else this.turn(x * STEP, y * STEP);
      this.writeAddress();
    } else if (event.key === "+" || event.key === "=") this.zoom(1.2);
    else if (event.key === "-") this.zoom(1 / 1.2);
    else if (event.key === "0" || event.key === "Home") this.look("first");
    else if (toggles[event.key]) this.toggle(toggles[event.key]);
    else if (event.key === "p") this.view = { ...this.view, straight: !this.view.straight };
    else if (event.key === "o" && this.models.length > 1) this.over = this.over === null ? 0.5 : null;
    else if (colours[event.key] && this.root.querySelector(`[value="${colours[event.key]}"]`)) {
      this.colours = colours[event.key];
    } else return;
    event.preventDefault();
    this.change(Boolean(arrows[event.key]));
  }

  toggle(name) {
    this.shown[name] = !this.shown[name];
  }

  /** The view as the page's address has it, so that it can be sent on. */
  writeAddress() {
    const { view } = this;
    const said = new URLSearchParams({ az: view.az.toFixed(1), el: view.el.toFixed(1), zoom: view.zoom.toPrecision(3),
      at: view.at.map((it) => it.toFixed(4)).join(","), colours: this.colours });
    if (view.straight) said.set("straight", "1");
    if (this.over !== null) said.set("over", this.over.toFixed(3));
    for (const flag of FLAGS) if (!this.shown[flag]) said.set(flag, "0");
    if (this.picked) said.set("pick", `${this.picked[0]}:${this.models[this.picked[0]].number(this.picked[1])}`);
    try {
      history.replaceState(null, "", `#${said.toString().replace(/%2C/g, ",").replace(/%3A/g, ":")}`);
    } catch (error) {
      // A page within another one has no address of its own.
    }
  }

  readAddress() {
    const said = new URLSearchParams(location.hash.slice(1));
    const number = (name, otherwise) => {
      const found = parseFloat(said.get(name));
      return Number.isFinite(found) ? found : otherwise;
    };
    const at = (said.get("at") || "").split(",").map(parseFloat);
    this.view = { ...this.view, az: number("az", this.view.az),
      el: Math.max(-90, Math.min(90, number("el", this.view.el))),
      zoom: Math.max(0.2, Math.min(500, number("zoom", this.view.zoom))), straight: said.get("straight") === "1",
      at: at.length === 3 && at.every(Number.isFinite) ? at : this.view.at };
    if (["patches", "jacobian", "distance", "plain"].includes(said.get("colours"))) this.colours = said.get("colours");
    for (const flag of FLAGS) if (said.has(flag)) this.shown[flag] = said.get(flag) !== "0";
    if (this.models.length > 1) this.over = said.has("over") ? Math.max(0, Math.min(1, number("over", 0.5))) : null;
    const [model, face] = (said.get("pick") || "").split(":").map((it) => parseInt(it, 10));
    if (this.models[model]) this.pick(model, this.faceOf(model, face), !said.has("zoom"));
    this.change();
  }
}

/** Shows the meshes of the page, or says why it cannot. */
function begin() {
  const told = document.getElementById("scene");
  if (!told) return null;
  try {
    return new Viewer(JSON.parse(told.textContent), document.getElementById("viewer"));
  } catch (error) {
    document.getElementById("viewer").hidden = true;
    document.getElementById("no-viewer").hidden = false;
    document.getElementById("no-viewer").textContent = `The meshes cannot be turned here: ${error.message}.`;
    return null;
  }
}

const viewer = begin();
