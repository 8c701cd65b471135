// The page: script, figure and ledger of one sketch. The script is the document; what is done by the mouse is written
// into it, and the program is asked what it makes.

import { Fault, ask, start, waiting } from './ask.js';
import { Editor } from './editor.js';
import { Figure } from './figure.js';
import { Hand } from './hand.js';
import { Ledger } from './ledger.js';
import { node, setTexts, text } from './texts.js';

const byId = id => document.getElementById(id);
const EDIT_PAUSE = 250;
const KEPT_LEDGERS = 200;

const started = await start();
setTexts(started.texts);

const figure = new Figure(byId('plane'));
const dualFigure = new Figure(byId('dual-plane'), { isDual: true });
const state = { look: null, undone: [], name: started.name, isFailing: null, version: 0 };
const ledgers = new Map();
const editor = new Editor(started.meanings, edited);
const ledger = new Ledger({ light, fail, asking, save, script: () => editor.script });
const hand = new Hand({ figure, state, library: started.library, meanings: started.meanings, write, move, showFigures, say, tell, asking, editor, undo, redo, rename, insertTool });

figure.onDraw = showElsewhere;

// ---- telling

// What a tool wants.
function say(words) {
  byId('prompt').textContent = words;
}

// What was done, or why it was not.
function tell(words, isBad = false, ...buttons) {
  byId('message').className = isBad ? 'bad' : '';
  byId('message').replaceChildren(words, ...buttons);
}

function reason(error) {
  if (error instanceof Fault) return text(error.key, error.filled);
  throw error;
}

// Does what asks the server, and tells where it fails; then the error goes on.
async function asking(act) {
  try {
    return await act();
  } catch (error) {
    if (error instanceof Fault) tell(reason(error), true);
    throw error;
  }
}

window.addEventListener('unhandledrejection', event => {
  if (event.reason instanceof Fault) event.preventDefault();
});

// ---- the sketch

// Looks at a script, and shows it; the text of the editor is set where it is another one.
async function look(script, { isTyped = false } = {}) {
  state.version += 1;
  const version = state.version;
  const told = await asking(() => ask('look', { script }));
  if (version === state.version) show(told, { isTyped });
  return told;
}

function show(told, { isTyped = false } = {}) {
  const before = state.look;
  state.look = told;
  if (!isTyped) editor.script = told.script;
  const known = ledgers.get(told.key);
  editor.show(told.lines, known?.slow);
  const claims = told.claims.map(claim => claim.split(' ').slice(1));
  showFigures(told.elements, claims);
  if (!before || (!before.elements.length && told.elements.length > 1) || isTurned(before, told)) figure.fit();
  if (!byId('dual-plane').hidden) dualFigure.fit();
  showHistory();
  hand.refresh();
  judge(told);
}

// Both figures have elements of their own, which are moved.
function showFigures(elements, claims) {
  for (const one of [figure, dualFigure]) one.show(elements.map(element => ({ ...element })), claims);
}

function move(places) {
  figure.move(places);
  if (!byId('dual-plane').hidden) dualFigure.move(places);
}

// Whether a point has become a line, so that the figure stands somewhere else.
function isTurned(before, told) {
  const kinds = new Map(before.elements.map(({ name, kind }) => [name, kind]));
  return told.elements.some(({ name, kind }) => kinds.has(name) && kinds.get(name) !== kind);
}

function showTheorems(theorems) {
  figure.theorems = dualFigure.theorems = theorems;
}

function showHistory() {
  byId('undo').disabled = !state.look.undo;
  byId('redo').disabled = !state.undone.length;
}

// Elements that are not in the picture can be chosen all the same.
let away = '';

function showElsewhere() {
  const found = (state.look?.elements ?? []).map(element => [element.name, figure.whereabouts(element.name)]).filter(([, where]) => where);
  if (away === found.join()) return;
  away = found.join();
  const buttons = found.map(([name, where]) => node('button', { onclick: () => hand.take(name) }, `${name} ${text(`state_${where}`)}`));
  byId('elsewhere').replaceChildren(...(found.length ? [text('elsewhere'), ...buttons] : []));
}

let pause = null;

function edited() {
  state.undone = [];
  endFailing();
  clearTimeout(pause);
  pause = setTimeout(() => look(editor.script, { isTyped: true }).catch(() => {}), EDIT_PAUSE);
}

// Writes lines behind the script's last change. What the program refuses is told, and not kept.
async function write(lines, { isKept = false } = {}) {
  const before = editor.script;
  const script = editor.withLines(lines);
  state.version += 1;
  const told = await asking(() => ask('look', { script }));
  const refused = refusedOf(told, before);
  if (refused && !isKept) {
    const { meaning = '', advice = '' } = started.meanings[refused.word] ?? {};
    tell(text('refused_line', { line: refused.line, word: refused.word, meaning, advice }), true);
    return null;
  }
  state.undone = [];
  endFailing();
  show(told);
  return told;
}

// The first line that is refused now, and is none of the old script's.
function refusedOf(told, before) {
  const old = new Map();
  for (const line of before.split('\n')) old.set(line, (old.get(line) ?? 0) + 1);
  const lines = told.script.split('\n');
  for (let k = 0; k < told.lines.length; k += 1) {
    const count = old.get(lines[k]) ?? 0;
    old.set(lines[k], count - 1);
    if (told.lines[k].refused && count <= 0) return { line: lines[k], word: told.lines[k].refused };
  }
  return null;
}

async function undo() {
  await asking(async () => {
    clearTimeout(pause);
    state.version += 1;
    const told = await ask('undo', { script: editor.script });
    if (told.taken.at) state.undone.push(told.taken);
    else state.undone = [];
    endFailing();
    show(told);
    tell(text('undone', { line: told.taken.line || 'undo' }));
  });
}

async function redo() {
  if (!state.undone.length) return tell(text('nothing_to_redo'));
  await asking(async () => {
    const taken = state.undone[state.undone.length - 1];
    state.version += 1;
    const told = await ask('redo', { script: editor.script, taken });
    state.undone.pop();
    endFailing();
    show(told);
    tell(text('redone', { line: taken.line }));
  });
}

// ---- verdicts

// Settles what holds, where the construction is one that was not asked yet.
async function judge(told) {
  const known = ledgers.get(told.key);
  if (known) return showLedger(known);
  if (!told.elements.length && !told.lines.some(line => line.waits)) {
    showTheorems([]);
    figure.draw();
    return ledger.showEmpty();
  }
  await askLedger(told);
}

let asked = 0;

// The server ends the program of a question where the page asks anew. It may meet two questions in the other order,
// so the last one is asked again where it was ended.
async function askLedger(told) {
  asked += 1;
  const number = asked;
  const isCurrent = () => state.look.key === told.key;
  const began = performance.now();
  const tick = () => isCurrent() && ledger.showAsking(Math.round((performance.now() - began) / 1000), started.seconds);
  showTheorems([]);
  figure.draw();
  tick();
  const clock = setInterval(tick, 1000);
  try {
    const judged = await ask('judge', { script: told.script });
    clearInterval(clock);
    if (ledgers.size > KEPT_LEDGERS) ledgers.clear();
    ledgers.set(told.key, judged);
    if (isCurrent()) showLedger(judged);
  } catch (error) {
    clearInterval(clock);
    if (!isCurrent()) return;
    if (error.key !== 'superseded') ledger.showMissing(reason(error), () => judge(state.look));
    else if (number === asked) await askLedger(told);
  }
}

function showLedger(judged) {
  ledger.show(judged.entries);
  editor.show(state.look.lines, judged.slow);
  showTheorems(judged.entries.filter(entry => entry.claimed && entry.verdict === 'proved' && entry.names.length > 1)
    .map(entry => ({ names: entry.names, className: 'theorem' })));
  showLights();
}

let lit = [];

function light(names) {
  lit = names;
  showLights();
}

function showLights() {
  const theorems = figure.theorems.filter(({ className }) => className === 'theorem');
  if (lit.length > 1) theorems.push({ names: lit, className: 'lit-line' });
  if (state.isFailing) theorems.push({ names: state.isFailing.names, className: 'theorem false' });
  showTheorems(theorems);
  figure.mark('lit', lit);
  dualFigure.mark('lit', lit);
}

// Moves the elements to where a statement fails, by drags that undo takes back.
async function fail(entry) {
  const told = await write(entry.drags);
  if (!told) return;
  state.isFailing = entry;
  figure.mark('failing', entry.names);
  figure.fit();
  showLights();
  tell(text('failing', { statement: entry.statement, values: entry.values.join(', ') }), true,
    node('button', { id: 'take-back', onclick: () => takeBack(entry.drags.length) }, text('take_back')));
}

async function takeBack(count) {
  for (let k = 0; k < count; k += 1) await undo();
  figure.fit();
}

function endFailing() {
  if (!state.isFailing) return;
  state.isFailing = null;
  figure.mark('failing', []);
  showLights();
  tell('');
}

// ---- changes of the whole script

async function larger() {
  const told = await asking(() => ask('larger', { script: editor.script }));
  state.undone = [];
  show(told);
  figure.view = { x: 10 * figure.view.x, y: 10 * figure.view.y, scale: figure.view.scale / 10 };
  figure.draw();
  tell(text('larger_done') + (told.rounded.length ? ` ${text('larger_rounded', { names: told.rounded.join(', ') })}` : ''));
}

async function positions() {
  const told = await asking(() => ask('positions', { script: editor.script }));
  state.undone = [];
  show(told);
  tell(text('positions_done'));
}

// A name that hangs on nothing stands in its own line and in its drags.
async function rename(element, name) {
  const lines = editor.script.split('\n').map((line, k) => {
    const words = line.split(/(\s+)/);
    const isOwn = k + 1 === element.at || words.filter(word => word.trim())[0] === 'drag';
    return isOwn ? words.map((word, place) => (word === element.name && place > 0 ? name : word)).join('') : line;
  });
  const told = await asking(() => ask('look', { script: lines.join('\n') }));
  const refused = refusedOf(told, editor.script);
  if (refused) {
    const { meaning = '', advice = '' } = started.meanings[refused.word] ?? {};
    return tell(text('refused_line', { line: refused.line, word: refused.word, meaning, advice }), true);
  }
  state.undone = [];
  show(told);
  return told;
}

// Puts a tool of the page's library into the script, before its first line that is no comment.
function insertTool(tool) {
  const lines = editor.script.split('\n');
  const at = Math.max(0, lines.findIndex(line => line.trim() && !line.trim().startsWith('#')));
  editor.script = [...lines.slice(0, at), ...tool.lines, ...lines.slice(at)].join('\n');
}

// ---- files

function save(name, content, type = 'text/plain') {
  const address = URL.createObjectURL(new Blob([content], { type }));
  node('a', { href: address, download: name }).click();
  setTimeout(() => URL.revokeObjectURL(address), 10000);
  tell(text('saved', { name }));
}

const base = () => (state.name.split(/[\\/]/).pop() || 'figure.txt').replace(/\.txt$/, '');

async function savePicture(form, ending, type) {
  const told = await asking(() => ask('picture', { script: editor.script, form, ledger: true }));
  save(`${base()}.${ending}`, told.text, type);
}

function openFile(event) {
  const file = event.target.files[0];
  if (file) file.text().then(script => begin(script, file.name));
  event.target.value = '';
}

async function begin(script, name = '') {
  state.name = name;
  state.undone = [];
  byId('name').textContent = name;
  endFailing();
  tell('');
  editor.script = script;
  state.look = null;
  await look(script);
  figure.fit();
}

// ---- buttons

function press(button, isPressed) {
  button.setAttribute('aria-pressed', String(isPressed));
  return isPressed;
}

const isPressed = button => button.getAttribute('aria-pressed') === 'true';

const ACTS = {
  new: () => (!editor.script.trim() || confirm(text('new_sure'))) && begin(''),
  open: () => byId('file').click(),
  save: () => save(`${base()}.txt`, editor.script.endsWith('\n') ? editor.script : `${editor.script}\n`),
  'save-svg': () => savePicture('svg', 'svg', 'image/svg+xml'),
  'save-tikz': () => savePicture('tikz', 'tex'),
  undo, redo, larger, positions,
  dual: () => write(['dual']),
  'dual-beside': button => {
    byId('dual-plane').toggleAttribute('hidden', !press(button, !isPressed(button)));
    dualFigure.fit();
    figure.fit();
  },
  'names-shown': button => {
    figure.showNames = dualFigure.showNames = press(button, !isPressed(button));
    figure.draw();
    dualFigure.draw();
  },
  'zoom-in': () => figure.zoom(1.25),
  'zoom-out': () => figure.zoom(0.8),
  fit: () => figure.fit(),
  large: button => {
    document.documentElement.classList.toggle('large', press(button, !isPressed(button)));
    figure.draw();
    dualFigure.draw();
  },
  help: () => byId('help-page').showModal(),
};

for (const [id, act] of Object.entries(ACTS)) byId(id).addEventListener('click', () => Promise.resolve(act(byId(id))).catch(() => {}));
for (const button of document.querySelectorAll('dialog .close')) button.addEventListener('click', () => button.closest('dialog').close());
byId('file').addEventListener('change', openFile);
window.addEventListener('beforeunload', event => {
  if (editor.script.trim() !== started.script.trim()) event.preventDefault();
});

// for tests in the browser
window.bukshena = { figure, state, hand, begin, waiting };

await begin(started.script, started.name);
hand.choose('move');
byId('plane').dataset.ready = 'yes';
