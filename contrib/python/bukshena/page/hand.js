// What the mouse and the keyboard do in the figure: choose elements, make them, drag them.

import { ask } from './ask.js';
import { TOOLS, bodyOf, claimOf, freshName, freshPrefix, hasGapBefore, promptOf, wordsOf } from './tools.js';
import { node, text } from './texts.js';

const byId = id => document.getElementById(id);
const COARSE_PIXELS = 22;

export class Hand {
  constructor(page) {
    Object.assign(this, page);
    this.tool = TOOLS[0];
    this.taken = [];
    this.work = Promise.resolve();
    this.frames = [];
    this.buildToolbar();
    this.listen();
  }

  // ---- choosing a tool

  buildToolbar() {
    const parts = [];
    for (const tool of TOOLS) {
      if (hasGapBefore(tool.name)) parts.push(node('span', { class: 'gap' }));
      parts.push(node('button', { 'data-tool': tool.name, 'aria-pressed': 'false', title: text(`tool_${tool.name}_help`),
        'aria-keyshortcuts': tool.key, onclick: () => this.choose(tool.name) }, text(`tool_${tool.name}`), node('kbd', { 'aria-hidden': 'true' }, tool.key)));
    }
    this.select = node('select', { 'aria-label': text('library'), onchange: () => this.chooseUse(this.select.value) });
    byId('toolbar').replaceChildren(...parts, this.select);
    this.refreshLibrary();
  }

  refreshLibrary() {
    const own = this.state.look?.tools ?? [];
    const names = own.map(tool => tool.name);
    const group = (label, options) => node('optgroup', { label }, ...options);
    const options = [node('option', { value: '' }, text('library_none'))];
    if (own.length) options.push(group(text('library_script'), own.map(tool => node('option', { value: tool.name }, tool.name))));
    const more = this.library.filter(tool => !names.includes(tool.name));
    options.push(group(text('library_more'), more.map(tool => node('option', { value: tool.name, title: tool.say }, tool.label))));
    this.select.replaceChildren(...options);
    this.select.value = this.tool.use ? this.tool.name : '';
  }

  choose(name) {
    this.setTool(TOOLS.find(tool => tool.name === name));
  }

  chooseUse(name) {
    if (!name) return this.choose('move');
    const own = (this.state.look?.tools ?? []).find(tool => tool.name === name);
    const { kinds } = own ?? this.library.find(tool => tool.name === name);
    return this.setTool({ name, use: true, kinds, steps: kinds.map(kind => (kind === 'point' ? 'make' : kind)) });
  }

  setTool(tool) {
    this.tool = tool;
    this.setTaken([]);
    for (const button of byId('toolbar').querySelectorAll('button')) {
      button.setAttribute('aria-pressed', String(!tool.use && button.dataset.tool === tool.name));
    }
    this.select.value = tool.use ? tool.name : '';
    byId('plane').dataset.tool = tool.name;
  }

  // What was taken so far: elements, and places as objects with `place`.
  setTaken(taken) {
    this.taken = taken;
    this.figure.mark('chosen', taken.map(one => one.name).filter(Boolean));
    this.say(promptOf(this.tool, taken.length));
  }

  // After a new look: what was taken may be gone.
  refresh() {
    const names = new Map(this.state.look.elements.map(element => [element.name, element]));
    this.setTaken(this.taken.every(one => one.place || names.has(one.name)) ? this.taken.map(one => names.get(one.name) ?? one) : []);
    this.refreshLibrary();
  }

  // ---- taking

  // Clicks are carried out one after the other.
  queue(act) {
    this.work = this.work.then(act).catch(() => this.setTaken([]));
    return this.work;
  }

  click(px, py) {
    return this.queue(() => this.takeAt(px, py));
  }

  // An element by its name: from the keyboard, or where it has no place in the picture.
  take(name) {
    return this.queue(() => {
      const element = this.state.look.elements.find(one => one.name === name);
      return element && this.takeElement(element, null);
    });
  }

  async takeAt(px, py) {
    const step = this.tool.steps[this.taken.length];
    const place = this.figure.exactPlace(px, py);
    if (!step) return undefined;
    if (step === 'place') return this.proceed({ place });
    if (step === 'make') return this.takePoint(px, py, place);
    const wanted = this.wantedKind(step);
    const found = this.figure.near(px, py, wanted).filter(element => !this.isTaken(element));
    if (!found.length && wanted !== 'line' && this.figure.near(px, py, 'line').length > 1) return this.takePoint(px, py, place);
    if (!found.length) return this.refuseAt(px, py, wanted);
    if (this.tool.name === 'meet' && !this.taken.length && found.length > 1 && found[1].kind === 'line') return this.proceed(found[0], found[1]);
    return this.takeElement(found[0], place);
  }

  refuseAt(px, py, wanted) {
    const [other] = this.figure.near(px, py);
    if (!other) this.tell(text('nothing_here'), true);
    else if (this.isTaken(other)) this.tell(text('chosen_twice', other), true);
    else this.tell(text('wrong_kind', { name: other.name, kind: text(`kind_${other.kind}`), wanted: text(`kind_${wanted}`) }), true);
  }

  isTaken(element) {
    return this.taken.some(one => one.name === element.name) && !this.tool.use;
  }

  wantedKind(step) {
    const first = this.taken[0]?.kind;
    if (step === 'like') return first;
    if (step === 'unlike') return first === 'point' ? 'line' : 'point';
    return step === 'make' ? 'point' : step;
  }

  takeElement(element, place) {
    const step = this.tool.steps[this.taken.length];
    if (!step || step === 'place') return undefined;
    const wanted = this.wantedKind(step);
    if (wanted !== 'any' && element.kind !== wanted) {
      return this.tell(text('wrong_kind', { name: element.name, kind: text(`kind_${element.kind}`), wanted: text(`kind_${wanted}`) }), true);
    }
    if (this.isTaken(element)) return this.tell(text('chosen_twice', element), true);
    return this.tool.atPlace ? this.proceed(element, { place: place ?? this.figure.exactPlace(...this.figure.pixelOf(element.name)) }) : this.proceed(element);
  }

  // The point that is there; else a meet, a point of the line, or a free point at the place.
  async takePoint(px, py, place) {
    const [there] = this.figure.near(px, py, 'point').filter(element => !this.isTaken(element));
    if (there) return this.proceed(there);
    const lines = this.figure.near(px, py, 'line');
    const name = freshName('point', wordsOf(this.editor.script));
    let line;
    if (lines.length > 1) line = `meet ${name} ${lines[0].name} ${lines[1].name}`;
    else if (lines.length) line = await this.lineOn(name, lines[0], place);
    else line = `point ${name} ${(await this.nearest('point', [], place)).join(' ')}`;
    const made = line && await this.made(line, name);
    return made && this.proceed(made);
  }

  // A point on a line: by its x, or where the line is upright by the ratio of two points that it was drawn through.
  async lineOn(name, line, place) {
    const onIt = this.pointsOf(line);
    if (Array.isArray(line.place) && Math.abs(line.place[1]) < Math.abs(line.place[0]) / 8 && onIt.length > 1) {
      const values = await this.nearest('along', onIt.slice(0, 2), place);
      if (values) return `along ${name} ${onIt[0]} ${onIt[1]} ${values[0]}`;
    }
    const values = await this.nearest('on', [line.name], place);
    if (!values) this.tell(text('no_values_here'), true);
    return values && `on ${name} ${line.name} ${values[0]}`;
  }

  pointsOf(line) {
    return line.word === 'join' && line.kind === 'line' ? line.below : [];
  }

  async nearest(word, names, place, turning) {
    return (await this.asking(() => ask('place', { id: this.state.look.id, word, names, place, turning }))).nearest;
  }

  // Writes a line, and gives the element that it makes.
  async made(line, name) {
    const told = await this.write([line]);
    if (!told) return null;
    this.tell(text('made', { line }));
    return told.elements.find(element => element.name === name) ?? null;
  }

  async proceed(...more) {
    this.setTaken([...this.taken, ...more]);
    const steps = this.tool.steps.length + (this.tool.atPlace ? 1 : 0);
    if (this.taken.length < steps) return;
    const taken = this.taken;
    if (this.tool.name === 'point') return this.setTaken([]);
    await this.finish(taken);
    this.setTaken([]);
  }

  // ---- what a tool does with what it took

  async finish(taken) {
    const { tool } = this;
    if (tool.use) return this.finishUse(taken);
    if (tool.claims) return this.writeAndTell(claimOf(tool.name, taken));
    if (tool.name === 'drop') return this.writeAndTell(`drop ${taken[0].name}`);
    if (tool.name === 'rename') return this.askName(taken[0]);
    const line = await this.lineOf(tool, taken, freshName(tool.makes, wordsOf(this.editor.script)));
    return line && this.writeAndTell(line);
  }

  async lineOf(tool, taken, name) {
    const names = taken.filter(one => one.name).map(one => one.name);
    const places = taken.filter(one => one.place && !one.name).map(one => one.place);
    if (tool.name === 'join' || tool.name === 'meet') return `${tool.name} ${name} ${names.join(' ')}`;
    if (tool.name === 'on') return this.lineOn(name, taken[0], places[0]);
    if (tool.name === 'fixpoint') return `fixpoint ${name} ${(await this.nearest('point', [], places[0])).join(' ')} 1`;
    const values = tool.name === 'line' ? await this.nearest('line', [], places[1], places[0]) : await this.nearest(tool.name, names, places[0]);
    if (!values) return this.tell(text('no_values_here'), true);
    if (tool.name === 'line' && values.every(value => value === 0)) return this.tell(text('line_at_infinity'), true);
    return `${tool.name} ${name} ${[...names, ...values].join(' ')}`;
  }

  async writeAndTell(line) {
    if (await this.write([line])) this.tell(text('made', { line }));
  }

  async finishUse(taken) {
    const { name } = this.tool;
    const isOwn = this.state.look.tools.some(tool => tool.name === name);
    const lines = isOwn ? bodyOf(name, this.editor.script) : this.library.find(tool => tool.name === name).lines;
    if (!isOwn) this.insertTool(this.library.find(tool => tool.name === name));
    const prefix = freshPrefix(name, lines, wordsOf(this.editor.script + this.state.look.elements.map(element => ` ${element.name}`).join('')));
    return this.writeAndTell(`use ${name} ${prefix} ${taken.map(one => one.name).join(' ')}`);
  }

  askName(element) {
    const users = [...element.users, ...element.claims];
    if (users.length) return this.tell(text('is_used', { name: element.name, users: users.join(', ') }), true);
    if (element.tool) return this.tell(text('by_tool', element), true);
    const dialog = byId('renaming'), field = byId('renaming-name');
    byId('renaming-label').textContent = text('rename_to', element);
    field.value = element.name;
    dialog.returnValue = '';
    dialog.showModal();
    field.select();
    dialog.addEventListener('close', () => {
      if (dialog.returnValue && field.value !== element.name) this.queue(() => this.rename(element, field.value));
    }, { once: true });
    return undefined;
  }

  // ---- dragging

  canDrag(element) {
    return ['free', 'cut', 'blend'].includes(element.how);
  }

  startDrag(element, px, py) {
    const start = this.figure.exactPlace(px, py);
    this.drag = { element, start, at: null, isAsking: false, isTurning: false, nearest: null };
    byId('plane').classList.add('dragging');
    this.figure.mark('chosen', [element.name]);
  }

  dragTo(px, py, isTurning = false) {
    this.drag.at = this.figure.exactPlace(px, py);
    this.drag.isTurning = isTurning;
    if (!this.drag.isAsking) this.drag.asked = this.followPointer(this.drag);
  }

  // One question at a time: while it is answered the pointer goes on, and the next question is about its last place.
  async followPointer(drag) {
    drag.isAsking = true;
    try {
      while (drag.at && this.drag === drag) {
        const place = drag.at;
        drag.at = null;
        const turning = drag.isTurning && drag.element.how === 'free' && drag.element.kind === 'line' ? drag.start : null;
        const told = await this.asking(() => ask('move', { id: this.state.look.id, name: drag.element.name, place, turning }));
        if (this.drag !== drag || !told.nearest) continue;
        drag.nearest = told.nearest;
        this.move(told.places);
        this.frames.push(performance.now());
        this.say(text('moved_to', { name: drag.element.name, values: told.nearest.join(' ') }));
      }
    } finally {
      drag.isAsking = false;
    }
  }

  async endDrag(isKept) {
    const { drag } = this;
    if (!drag) return;
    await drag.asked?.catch(() => {});
    this.drag = null;
    byId('plane').classList.remove('dragging');
    this.setTaken([]);
    const { element, nearest } = drag;
    if (isKept && nearest && nearest.join(' ') !== element.values.join(' ')) await this.writeDrag(element, nearest);
    else this.showFigures(this.state.look.elements);
  }

  async writeDrag(element, values) {
    const told = await this.write([`drag ${element.name} ${values.join(' ')}`]);
    if (!told) return this.showFigures(this.state.look.elements);
    const pixels = Math.round(this.figure.view.scale);
    const isCoarse = element.how === 'free' && element.kind === 'point' && pixels > COARSE_PIXELS;
    return this.tell(text('moved_to', { name: element.name, values: values.join(' ') }) + (isCoarse ? ` — ${text('coarse', { pixels })}` : ''));
  }

  explainStuck(element) {
    if (element.how === 'fixed') this.tell(text('is_fixed', element));
    else this.tell(text('is_derived', { name: element.name, below: element.below.join(', ') }));
  }

  // ---- pointer

  listen() {
    const plane = byId('plane');
    const pixels = event => {
      const box = plane.getBoundingClientRect();
      return [event.clientX - box.left, event.clientY - box.top];
    };
    plane.addEventListener('pointerdown', event => event.button === 0 && this.pointerDown(event, pixels(event)));
    plane.addEventListener('pointermove', event => this.pointerMove(event, pixels(event)));
    plane.addEventListener('pointerup', event => this.pointerUp(event, pixels(event)));
    plane.addEventListener('pointercancel', () => this.endDrag(false));
    plane.addEventListener('wheel', event => {
      event.preventDefault();
      this.figure.zoom(Math.exp(-event.deltaY / 500), ...pixels(event));
    }, { passive: false });
    plane.addEventListener('keydown', event => this.keyDown(event));
    byId('toolbar').addEventListener('keydown', event => this.toolKey(event));
    plane.addEventListener('blur', () => {
      this.figure.cross = null;
      this.figure.draw();
    });
  }

  pointerDown(event, [px, py]) {
    this.figure.cross = null;
    byId('plane').focus({ preventScroll: true });
    byId('plane').setPointerCapture(event.pointerId);
    this.press = { px, py, x: px, y: py, isMoved: false, isPan: false };
    if (this.tool.name !== 'move' || this.drag) return;
    const found = this.figure.near(px, py);
    const element = found.find(one => this.canDrag(one) && (one.kind === found[0].kind || one.kind === 'point'));
    if (element) this.startDrag(element, px, py);
    else if (found.length) this.explainStuck(found[0]);
    else this.press.isPan = true;
  }

  pointerMove(event, [px, py]) {
    const { press } = this;
    if (!press) return;
    if (Math.hypot(px - press.px, py - press.py) > 4) press.isMoved = true;
    if (this.drag && press.isMoved) this.dragTo(px, py, event.shiftKey);
    else if (press.isPan && press.isMoved) this.figure.pan(px - press.x, py - press.y);
    [press.x, press.y] = [px, py];
  }

  pointerUp(event, [px, py]) {
    const { press } = this;
    this.press = null;
    if (!press) return;
    if (this.drag) this.queue(() => this.endDrag(press.isMoved));
    else if (this.tool.name !== 'move') this.click(px, py);
  }

  // ---- keyboard

  toolKey(event) {
    if (event.ctrlKey || event.metaKey || event.altKey || event.target.tagName === 'SELECT') return false;
    const tool = TOOLS.find(one => one.key === event.key);
    if (tool) this.choose(tool.name);
    return Boolean(tool);
  }

  keyDown(event) {
    if ((event.ctrlKey || event.metaKey) && (event.key === 'z' || event.key === 'y')) {
      event.preventDefault();
      return this.queue(event.key === 'z' && !event.shiftKey ? this.undo : this.redo);
    }
    if (event.ctrlKey || event.metaKey || event.altKey) return undefined;
    const act = this.keyAct(event);
    if (act) event.preventDefault();
    else this.toolKey(event);
    return undefined;
  }

  keyAct(event) {
    const steps = { ArrowLeft: [-1, 0], ArrowRight: [1, 0], ArrowUp: [0, 1], ArrowDown: [0, -1] }[event.key];
    if (steps) return this.moveCross(steps, event.shiftKey ? 5 : 1);
    switch (event.key) {
      case 'Enter': case ' ': return this.keyClick();
      case 'Escape': return this.keyEscape();
      case '.': return this.nextElement(1);
      case ',': return this.nextElement(-1);
      case '+': case '=': this.figure.zoom(1.25); return true;
      case '-': this.figure.zoom(0.8); return true;
      case '0': this.figure.fit(); return true;
      default: return false;
    }
  }

  moveCross([dx, dy], factor) {
    const step = Math.max(1, this.figure.step() / 5) * factor;
    const [x, y] = this.figure.cross ?? [Math.round(this.figure.view.x), Math.round(this.figure.view.y)];
    const at = this.figure.cross ? [x + dx * step, y + dy * step] : [x, y];
    this.crossAt(at, null);
    if (this.drag) this.dragTo(...this.figure.toPixels(...at));
    else this.tell(text('at_place', { x: round(at[0]), y: round(at[1]) }));
    return true;
  }

  crossAt(place, target) {
    this.figure.cross = place;
    this.target = target;
    const [px, py] = this.figure.toPixels(...place);
    if (px < 0 || py < 0 || px > this.figure.width || py > this.figure.height) this.figure.view = { ...this.figure.view, x: place[0], y: place[1] };
    this.figure.draw();
  }

  nextElement(step) {
    const drawn = this.state.look.elements.filter(element => this.figure.pixelOf(element.name));
    if (!drawn.length) return true;
    const at = drawn.findIndex(element => element.name === this.target);
    const element = drawn[(at + step + drawn.length + (at < 0 && step < 0 ? 1 : 0)) % drawn.length];
    this.crossAt(this.figure.toPlace(...this.figure.pixelOf(element.name)), element.name);
    this.tell(text('at_element', { name: element.name, kind: text(`kind_${element.kind}`) }));
    return true;
  }

  keyClick() {
    if (!this.figure.cross) return this.moveCross([0, 0], 1);
    const at = this.figure.toPixels(...this.figure.cross);
    if (this.drag) return this.queue(() => this.endDrag(true)) && true;
    if (this.tool.name === 'move') return this.keyPickUp(at);
    const step = this.tool.steps[this.taken.length];
    if (this.target && step !== 'place') this.take(this.target);
    else this.click(...at);
    return true;
  }

  keyPickUp([px, py]) {
    const near = this.figure.near(px, py);
    const element = near.find(one => one.name === this.target) ?? near.find(one => this.canDrag(one)) ?? near[0];
    if (!element) this.tell(text('nothing_here'), true);
    else if (!this.canDrag(element)) this.explainStuck(element);
    else {
      this.startDrag(element, px, py);
      this.target = null;
      if (element.kind === 'point') this.figure.cross = this.figure.cross.map(Math.round);
      this.tell(text('picked_up', element));
    }
    return true;
  }

  keyEscape() {
    if (this.drag) this.queue(() => this.endDrag(false));
    else this.setTaken([]);
    this.target = null;
    return true;
  }
}

function round(number) {
  return Math.round(number * 100) / 100;
}
