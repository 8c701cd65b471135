// A figure of points and lines, drawn as SVG from their homogeneous coordinates. The view has the place of the plane
// that is in the middle, and the pixels of one unit.

const SPACE = 'http://www.w3.org/2000/svg';
const NEAR_POINT = 12, NEAR_LINE = 7, MARGIN = 0.14, LARGEST_SCALE = 2000, SMALLEST_SCALE = 0.02;
const AROUND = [[9, -9], [9, 17], [-9, -9], [-9, 17], [0, -13], [0, 23], [13, 5], [-13, 5]];

const cross = (a, b) => [a[1] * b[2] - a[2] * b[1], a[2] * b[0] - a[0] * b[2], a[0] * b[1] - a[1] * b[0]];
const other = kind => (kind === 'point' ? 'line' : 'point');

export class Figure {
  constructor(svg, { isDual = false } = {}) {
    this.svg = svg;
    this.isDual = isDual;
    this.view = { x: 0, y: 0, scale: 40 };
    this.elements = [];
    this.claims = [];
    this.nodes = new Map();
    this.marks = { lit: [], chosen: [], failing: [] };
    this.theorems = [];
    this.showNames = true;
    this.sides = new Map();
    this.layers = Object.fromEntries(['grid', 'lines', 'theorems', 'points', 'names', 'cross'].map(name => {
      const layer = this.make('g', { class: `layer-${name}` });
      svg.append(layer);
      return [name, layer];
    }));
    this.measure();
    new ResizeObserver(() => this.draw()).observe(svg);
  }

  make(tag, attributes) {
    const made = document.createElementNS(SPACE, tag);
    for (const [name, value] of Object.entries(attributes)) made.setAttribute(name, value);
    return made;
  }

  // The size is asked once a picture: between changes of nodes it would lay out the whole page each time.
  measure() {
    this.width = this.svg.clientWidth || 600;
    this.height = this.svg.clientHeight || 500;
  }

  // ---- places and pixels

  toPixels(x, y) {
    return [this.width / 2 + (x - this.view.x) * this.view.scale, this.height / 2 - (y - this.view.y) * this.view.scale];
  }

  toPlace(px, py) {
    return [this.view.x + (px - this.width / 2) / this.view.scale, this.view.y - (py - this.height / 2) / this.view.scale];
  }

  // Three whole numbers of a place, a small part of a pixel exact: how the server is told of it.
  exactPlace(px, py) {
    const parts = 2 ** Math.max(0, Math.min(20, Math.ceil(Math.log2(this.view.scale)) + 3));
    return [...this.toPlace(px, py).map(number => Math.round(number * parts)), parts];
  }

  kindOf(element) {
    return this.isDual ? other(element.kind) : element.kind;
  }

  // The pixels of a finite point; null of others.
  pointPixels(place) {
    if (!Array.isArray(place) || Math.abs(place[2]) < 1e-12 * Math.max(Math.abs(place[0]), Math.abs(place[1]))) return null;
    const [x, y] = this.toPixels(place[0] / place[2], place[1] / place[2]);
    return Math.abs(x) < 1e6 && Math.abs(y) < 1e6 ? [x, y] : null;
  }

  // The line in pixels, as numbers a, b, c with a·x + b·y + c = 0 and a² + b² = 1; null of the line at infinity.
  linePixels(place) {
    if (!Array.isArray(place)) return null;
    const { x, y, scale } = this.view;
    const a = place[0] / scale, b = -place[1] / scale;
    const c = place[2] + place[0] * (x - this.width / 2 / scale) + place[1] * (y + this.height / 2 / scale);
    const size = Math.hypot(a, b);
    return size > 1e-13 * Math.abs(c) ? [a / size, b / size, c / size] : null;
  }

  // Where a line meets the edge: two points; null where it does not.
  clipped([a, b, c]) {
    const found = [];
    const put = (x, y) => {
      if (x >= -0.5 && x <= this.width + 0.5 && y >= -0.5 && y <= this.height + 0.5) found.push([x, y]);
    };
    if (Math.abs(b) > 1e-9) for (const x of [0, this.width]) put(x, -(a * x + c) / b);
    if (Math.abs(a) > 1e-9) for (const y of [0, this.height]) put(-(b * y + c) / a, y);
    if (found.length < 2) return null;
    found.sort((p, q) => p[0] - q[0] || p[1] - q[1]);
    const [p, q] = [found[0], found[found.length - 1]];
    return Math.hypot(p[0] - q[0], p[1] - q[1]) > 1 ? [p, q] : null;
  }

  // ---- the view

  zoom(factor, px = this.width / 2, py = this.height / 2) {
    const [x, y] = this.toPlace(px, py);
    const scale = Math.min(LARGEST_SCALE, Math.max(SMALLEST_SCALE, this.view.scale * factor));
    this.view = { x: x - (px - this.width / 2) / scale, y: y + (py - this.height / 2) / scale, scale };
    this.draw();
  }

  pan(dx, dy) {
    this.view.x -= dx / this.view.scale;
    this.view.y += dy / this.view.scale;
    this.draw();
  }

  // The points, and those in which lines are claimed to meet.
  placesToShow() {
    const of = new Map(this.elements.map(element => [element.name, element]));
    const claimed = this.claims.map(names => names.map(name => of.get(name)))
      .filter(elements => elements.length === 3 && elements.every(element => element && this.kindOf(element) === 'line' && Array.isArray(element.place)))
      .map(elements => sharedTriple(elements.map(element => element.place)));
    return [...this.elements.filter(element => this.kindOf(element) === 'point').map(({ place }) => place), ...claimed];
  }

  // Shows all points, each not too near to the edge.
  fit() {
    this.measure();
    const points = this.placesToShow().filter(place => Array.isArray(place) && place[2]).map(place => [place[0] / place[2], place[1] / place[2]]);
    if (points.length) {
      const [left, right] = middlePart(points.map(([x]) => x));
      const [low, high] = middlePart(points.map(([, y]) => y));
      const span = Math.max(right - left, (high - low) * this.width / this.height, 1e-6);
      const scale = right - left + high - low > 0
        ? (1 - 2 * MARGIN) * Math.min(this.width / Math.max(right - left, 1e-9), this.height / Math.max(high - low, 1e-9)) : 40;
      this.view = { x: (left + right) / 2, y: (low + high) / 2, scale: Math.min(span > 1e-6 ? (this.isDual ? LARGEST_SCALE : 160) : 40, Math.max(SMALLEST_SCALE, scale)) };
    } else {
      this.view = { x: 0, y: 0, scale: 40 };
    }
    this.draw();
  }

  // ---- what is drawn

  // The claims are the names that each is about.
  show(elements, claims = this.claims) {
    this.elements = elements;
    this.claims = claims;
    this.draw();
  }

  // New places of some elements, by name: triples, or null.
  move(places) {
    for (const element of this.elements) if (element.name in places) element.place = places[element.name] ?? 'null';
    this.measure();
    this.drawElements();
    this.drawTheorems();
    this.drawNames();
    this.drawCross();
  }

  mark(what, names) {
    this.marks[what] = names;
    this.draw();
  }

  draw() {
    this.measure();
    this.drawGrid();
    this.drawElements();
    this.drawTheorems();
    this.drawNames();
    this.drawCross();
    this.onDraw?.();
  }

  // Why an element is not in the picture: null, far, infinity, or outside; '' where it is there.
  whereabouts(name) {
    const element = this.elements.find(one => one.name === name);
    if (!Array.isArray(element?.place)) return element?.place ?? '';
    const spot = this.spots.find(one => one.element === element);
    if (!spot) return this.kindOf(element) === 'line' && !element.place[0] && !element.place[1] ? 'infinity' : 'outside';
    const [x, y] = spot.point ?? [1, 1];
    return x < 0 || y < 0 || x > this.width || y > this.height ? 'outside' : '';
  }

  step() {
    const wanted = 55 / this.view.scale;
    return [1, 2, 5, 10, 20, 50, 100, 200, 500, 1000].find(step => step >= wanted) ?? 5000;
  }

  drawGrid() {
    const step = this.step(), lines = [];
    const [left, top] = this.toPlace(0, 0), [right, low] = this.toPlace(this.width, this.height);
    const at = (x1, y1, x2, y2, isAxis) => lines.push(this.make('line', { class: isAxis ? 'axis' : 'grid', x1, y1, x2, y2 }));
    for (let x = Math.ceil(left / step) * step; x <= right; x += step) at(this.toPixels(x, 0)[0], 0, this.toPixels(x, 0)[0], this.height, x === 0);
    for (let y = Math.ceil(low / step) * step; y <= top; y += step) at(0, this.toPixels(0, y)[1], this.width, this.toPixels(0, y)[1], y === 0);
    this.layers.grid.replaceChildren(...(this.isDual ? [] : lines));
  }

  classesOf(element) {
    const marks = Object.keys(this.marks).filter(what => this.marks[what].includes(element.name));
    return [this.kindOf(element), ['free', 'cut', 'blend'].includes(element.how) ? 'free' : element.how, element.helper ? 'helper' : '', ...marks]
      .filter(Boolean).join(' ');
  }

  // A node of the element's shape, made anew only where the shape changes.
  nodeOf(element, tag, layer) {
    let node = this.nodes.get(element.name);
    if (!node || node.tagName !== tag) {
      node?.remove();
      node = this.make(tag, { 'data-name': element.name });
      this.nodes.set(element.name, node);
      layer.append(node);
    }
    return node;
  }

  set(node, attributes) {
    for (const [name, value] of Object.entries(attributes)) node.setAttribute(name, value);
  }

  drawElements() {
    const drawn = new Set();
    this.spots = [];
    for (const element of this.elements) {
      const spot = this.kindOf(element) === 'point' ? this.drawPoint(element) : this.drawLine(element);
      if (spot) {
        drawn.add(element.name);
        this.spots.push({ element, ...spot });
      }
    }
    for (const [name, node] of this.nodes) {
      if (!drawn.has(name)) {
        node.remove();
        this.nodes.delete(name);
      }
    }
  }

  drawPoint(element) {
    const at = this.pointPixels(element.place);
    if (at) {
      this.set(this.nodeOf(element, 'circle', this.layers.points), { class: this.classesOf(element), cx: at[0], cy: at[1], r: this.radius(element) });
      return { point: at };
    }
    if (!Array.isArray(element.place) || this.isDual) return null;
    return this.drawArrow(element);
  }

  radius(element) {
    const large = document.documentElement.classList.contains('large') ? 1.6 : 1;
    return large * (element.helper ? 3 : 5);
  }

  // A point at infinity is an arrow at the edge, in its direction.
  drawArrow(element) {
    const size = Math.hypot(element.place[0], element.place[1]);
    if (!size) return null;
    const dx = element.place[0] / size, dy = -element.place[1] / size;
    const far = Math.min((this.width / 2 - 18) / Math.max(Math.abs(dx), 1e-9), (this.height / 2 - 18) / Math.max(Math.abs(dy), 1e-9));
    const x = this.width / 2 + dx * far, y = this.height / 2 + dy * far;
    const corner = (along, aside) => `${x + along * dx - aside * dy},${y + along * dy + aside * dx}`;
    this.set(this.nodeOf(element, 'polygon', this.layers.points),
      { class: `arrow ${this.classesOf(element)}`, points: [corner(12, 0), corner(-6, 7), corner(-2, 0), corner(-6, -7)].join(' ') });
    return { point: [x, y] };
  }

  drawLine(element) {
    const line = this.linePixels(element.place), ends = line && this.clipped(line);
    if (!ends) return null;
    const [[x1, y1], [x2, y2]] = ends;
    this.set(this.nodeOf(element, 'line', this.layers.lines), { class: this.classesOf(element), x1, y1, x2, y2 });
    return { line, ends };
  }

  // What is claimed and proved is seen: the line of three points, the point of three lines.
  drawTheorems() {
    const nodes = [];
    const places = new Map(this.elements.map(element => [element.name, element]));
    for (const { names, className } of this.theorems) {
      const elements = names.map(name => places.get(name)).filter(Boolean);
      if (elements.length === names.length) nodes.push(...this.theoremNodes(elements, className));
    }
    this.layers.theorems.replaceChildren(...nodes);
  }

  theoremNodes(elements, className) {
    if (elements.length < 2 || elements.some(element => !Array.isArray(element.place))) return [];
    const kinds = new Set(elements.map(element => this.kindOf(element)));
    const shared = kinds.size === 1 ? sharedTriple(elements.map(element => element.place)) : null;
    if (kinds.size === 2) {
      const point = this.pointPixels(elements.find(element => this.kindOf(element) === 'point').place);
      return point ? [this.ring(point, className)] : [];
    }
    if (!shared) {
      return kinds.has('point') ? elements.map(element => this.pointPixels(element.place)).filter(Boolean).map(at => this.ring(at, className)) : [];
    }
    if (kinds.has('line')) {
      const at = this.pointPixels(shared);
      return at ? [this.ring(at, className)] : [];
    }
    const line = this.linePixels(shared), ends = line && this.clipped(line);
    return ends ? [this.make('line', { class: className, x1: ends[0][0], y1: ends[0][1], x2: ends[1][0], y2: ends[1][1] })] : [];
  }

  ring([cx, cy], className) {
    return this.make('circle', { class: className, cx, cy, r: 11 });
  }

  // ---- names, each where it hides least

  drawNames() {
    const nodes = [];
    if (this.showNames) {
      const size = parseFloat(getComputedStyle(document.documentElement).fontSize) || 15;
      const taken = [];
      for (const spot of this.spots) if (spot.point && !spot.element.helper) nodes.push(this.namePoint(spot, taken, size));
      for (const spot of this.spots) if (spot.line && !spot.element.helper) nodes.push(this.nameLine(spot, taken, size));
    }
    this.layers.names.replaceChildren(...nodes);
  }

  namePoint({ element, point: [x, y] }, taken, size) {
    const width = element.name.length * size * 0.62;
    const boxes = AROUND.map(([dx, dy], side) => ({ side, ...boxAt(x + dx * size / 15, y + dy * size / 15, dx, width, size) }));
    const last = this.sides.get(element.name) ?? 0;
    const best = least(boxes, box => this.hiding(box, taken, element) + (box.side === last ? -3 : 0) + box.side * 0.1);
    this.sides.set(element.name, best.side);
    return this.putName(element, best, taken, 'name-point');
  }

  nameLine({ element, line: [a, b], ends: [p, q] }, taken, size) {
    const width = element.name.length * size * 0.55, boxes = [];
    for (const part of [0.03, 0.97, 0.08, 0.92, 0.15, 0.85, 0.25, 0.75]) {
      for (const side of [1, -1]) {
        const x = p[0] + part * (q[0] - p[0]) + side * a * size * 0.8, y = p[1] + part * (q[1] - p[1]) + side * b * size * 0.8;
        boxes.push({ left: x - width / 2, right: x + width / 2, top: y - size / 2, bottom: y + size / 2, x: x - width / 2, y: y + size / 3, part: Math.abs(part - 0.5) });
      }
    }
    const best = least(boxes, box => this.hiding(box, taken, element) - box.part * 4);
    return this.putName(element, best, taken, 'name-line');
  }

  putName(element, box, taken, className) {
    taken.push(box);
    const name = this.make('text', { class: className, x: box.x, y: box.y, 'data-name-of': element.name });
    name.textContent = element.name;
    return name;
  }

  // How much a name in this box hides: points most, then other names, then lines.
  hiding(box, taken, own) {
    let cost = 0;
    if (box.left < 2 || box.top < 2 || box.right > this.width - 2 || box.bottom > this.height - 2) cost += 60;
    for (const other of taken) if (overlap(box, other)) cost += 40;
    const cx = (box.left + box.right) / 2, cy = (box.top + box.bottom) / 2;
    for (const { element, point, line } of this.spots) {
      if (point && element !== own && point[0] > box.left - 5 && point[0] < box.right + 5 && point[1] > box.top - 5 && point[1] < box.bottom + 5) cost += 30;
      if (line && element !== own) {
        const reach = Math.abs(line[0]) * (box.right - box.left) / 2 + Math.abs(line[1]) * (box.bottom - box.top) / 2;
        const distance = Math.abs(line[0] * cx + line[1] * cy + line[2]);
        if (distance < reach) cost += element.helper ? 2 : 6;
      }
    }
    return cost;
  }

  // ---- the keyboard's cross

  drawCross() {
    const at = this.cross && this.toPixels(...this.cross);
    this.layers.cross.replaceChildren(...(at
      ? [this.make('path', { class: 'cursor', d: `M${at[0] - 14} ${at[1]}h28M${at[0]} ${at[1] - 14}v28` }), this.ring(at, 'cursor')] : []));
  }

  // ---- what is where

  // The names of the elements near a pixel, nearest first, points before lines; of one kind where that is given.
  near(px, py, kind = 'any', reach = 1) {
    const found = [];
    for (const { element, point, line } of this.spots ?? []) {
      if (point && kind !== 'line') {
        const distance = Math.hypot(point[0] - px, point[1] - py);
        if (distance <= NEAR_POINT * reach) found.push({ element, distance: distance - 1000 });
      }
      if (line && kind !== 'point') {
        const distance = Math.abs(line[0] * px + line[1] * py + line[2]);
        if (distance <= NEAR_LINE * reach) found.push({ element, distance });
      }
    }
    return found.sort((a, b) => a.distance - b.distance).map(({ element }) => element);
  }

  // A pixel of an element that is drawn, for the cross.
  pixelOf(name) {
    const spot = (this.spots ?? []).find(({ element }) => element.name === name);
    return spot && (spot.point ?? [0, 1].map(k => 0.62 * spot.ends[0][k] + 0.38 * spot.ends[1][k]));
  }
}

// The line through points that are not all the same, or the point on lines: null where they are in more than one.
function sharedTriple(triples) {
  const sized = triples.map(triple => {
    const size = Math.hypot(...triple);
    return triple.map(number => number / size);
  });
  let best = null, largest = 1e-12;
  for (let i = 0; i < sized.length; i += 1) {
    for (let j = i + 1; j < sized.length; j += 1) {
      const made = cross(sized[i], sized[j]), size = Math.hypot(...made);
      if (size > largest) [best, largest] = [made, size];
    }
  }
  if (!best) return null;
  return sized.every(triple => Math.abs(triple[0] * best[0] + triple[1] * best[1] + triple[2] * best[2]) < 1e-6 * largest) ? best : null;
}

// The span of most of the numbers: those far off are left out, so that one far point does not make all others one.
function middlePart(numbers) {
  const sorted = [...numbers].sort((a, b) => a - b), n = sorted.length;
  if (n < 5) return [sorted[0], sorted[n - 1]];
  const low = sorted[Math.floor(n / 4)], high = sorted[Math.floor((3 * n) / 4)], reach = 10 * Math.max(high - low, 1e-9);
  const kept = sorted.filter(number => number >= low - reach && number <= high + reach);
  return [kept[0], kept[kept.length - 1]];
}

function boxAt(x, y, dx, width, size) {
  const left = dx > 0 ? x : dx < 0 ? x - width : x - width / 2;
  return { x: left, y, left, right: left + width, top: y - size * 0.8, bottom: y + size * 0.25 };
}

function overlap(a, b) {
  return a.left < b.right && b.left < a.right && a.top < b.bottom && b.top < a.bottom;
}

function least(list, cost) {
  let best = list[0], smallest = Infinity;
  for (const one of list) {
    const found = cost(one);
    if (found < smallest) [best, smallest] = [one, found];
  }
  return best;
}
