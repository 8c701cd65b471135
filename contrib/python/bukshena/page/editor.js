// The script, which is the document: its text, and beside each line its number and its answer.

import { node, text } from './texts.js';

const byId = id => document.getElementById(id);
const QUESTIONS = new Set(['screen', 'svg', 'show', 'close', 'ledger', 'conjectures', 'certify', 'infer', 'zero']);

export class Editor {
  constructor(meanings, onEdit) {
    this.area = byId('text');
    this.meanings = meanings;
    this.area.addEventListener('input', () => {
      this.fit();
      onEdit();
    });
  }

  get script() {
    return this.area.value;
  }

  set script(script) {
    if (script === this.area.value) return;
    this.area.value = script;
    this.fit();
  }

  // The text is as high as its lines, so that numbers and answers scroll with it.
  fit() {
    this.area.rows = Math.max(this.script.split('\n').length, 1);
  }

  // The text with lines behind its last change: what it asks at its end stays there.
  withLines(added) {
    const lines = this.script.split('\n');
    let at = lines.length;
    while (at > 0 && isQuestion(lines[at - 1])) at -= 1;
    if (lines.slice(at).every(line => !line.trim())) while (at > 0 && !lines[at - 1].trim()) at -= 1;
    const rest = lines.slice(at);
    return [...lines.slice(0, at), ...added, ...(rest.length ? rest : [''])].join('\n');
  }

  show(lines, slow = []) {
    const waiting = [...slow];
    const answers = lines.map(line => (line.waits && slow.length ? withSlow(line, waiting) : line));
    byId('numbers').replaceChildren(...answers.map((line, k) => node('li', { class: line.refused ? 'wrong' : null }, String(k + 1))));
    byId('answers').replaceChildren(...answers.map((line, k) => this.answer(line, k + 1)));
    this.showRefusals(answers);
  }

  answer(line, at) {
    const item = node('li', {});
    if (line.refused) {
      item.className = 'refused';
      item.title = this.meaningOf(line.refused, at);
      item.append(`refused ${line.refused}`);
    } else if (line.waits) {
      item.append(text('answer_waits'));
    } else if (line.answers.length) {
      item.append(this.shortAnswer(line.answers, at));
    }
    return item;
  }

  shortAnswer(answers, at) {
    const said = answers.filter(answer => answer !== 'ok');
    if (!said.length) return 'ok';
    const whole = said.join('\n');
    const lines = whole ? whole.split('\n') : [];
    const short = whole === 'svg' ? text('answer_picture') : whole.startsWith('{') ? text('answer_certificate')
      : lines.length === 0 ? text('answer_empty') : lines.length === 1 && whole.length < 18 ? whole
      : lines.length === 1 ? lines[0].split(' ')[0] : text('answer_lines', { count: lines.length });
    if (!lines.length) return short;
    if (short === whole) return node('span', { class: worst(lines) }, short);
    return node('button', { title: whole.slice(0, 2000), class: worst(lines), onclick: () => this.showWhole(at, whole) }, short);
  }

  showWhole(at, whole) {
    byId('refusals').replaceChildren(node('h3', {}, `${at}`), node('pre', {}, whole));
  }

  meaningOf(word, at) {
    const { meaning = '', advice = '' } = this.meanings[word] ?? {};
    return text('refused_entry', { at, word, meaning, advice });
  }

  showRefusals(lines) {
    const refused = lines.map((line, k) => [line.refused, k + 1]).filter(([word]) => word);
    const list = node('ul', {}, ...refused.map(([word, at]) => node('li', {}, this.meaningOf(word, at))));
    byId('refusals').replaceChildren(...(refused.length ? [node('h3', {}, text('refused_title')), list] : []));
  }
}

// The verdict that an answer of many lines is coloured by.
function worst(lines) {
  return ['false', 'unsettled', 'proved'].find(verdict => lines.some(line => line.startsWith(`${verdict} `))) ?? lines[0].split(' ')[0];
}

// The answers of a line with slow commands, taken from the front of those that came.
function withSlow(line, waiting) {
  const came = waiting.splice(0, line.waits);
  const refused = came.find(answer => /^refused [a-z]+$/.test(answer));
  return { refused: line.refused || (refused ? refused.split(' ')[1] : ''), answers: [...line.answers, ...came], waits: 0 };
}

function isQuestion(line) {
  const word = line.trim().split(/\s+/)[0];
  return word === '' || word.startsWith('#') || QUESTIONS.has(word);
}
