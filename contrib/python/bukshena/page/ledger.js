// The ledger: claims first, then what was noticed, and folded what holds by the way the figure was drawn. Each verdict
// is shown as the program printed it.

import { ask } from './ask.js';
import { node, text } from './texts.js';

const byId = id => document.getElementById(id);
const MARKS = { proved: '✓', false: '✗', 'unsettled grid': '?', 'unsettled height': '?' };

export class Ledger {
  // `acts` has light(names), fail(entry) and script().
  constructor(acts) {
    this.acts = acts;
    this.entries = [];
    this.isOpen = false;
  }

  get list() {
    return byId('ledger');
  }

  showEmpty() {
    this.entries = [];
    this.list.replaceChildren(node('p', { class: 'note' }, text('ledger_empty')));
  }

  showAsking(seconds, limit) {
    const said = seconds < 3 ? text('asking') : text('asking_long', { seconds, limit });
    this.entries = [];
    this.list.replaceChildren(node('p', { class: 'asking' }, said));
  }

  showMissing(why, again) {
    this.entries = [];
    this.list.replaceChildren(node('p', { class: 'note' }, text('ledger_missing', { why })),
      node('button', { onclick: again }, text('ask_again')));
  }

  show(entries) {
    this.entries = entries;
    this.advised = new Set();
    const claims = entries.filter(entry => entry.claimed);
    const noticed = entries.filter(entry => !entry.claimed && !entry.built);
    const built = entries.filter(entry => !entry.claimed && entry.built);
    const parts = [node('h3', {}, text('claims')), claims.length ? this.listOf(claims) : node('p', { class: 'note' }, text('claims_none')),
      node('h3', {}, text('noticed')), noticed.length ? this.listOf(noticed) : node('p', { class: 'note' }, text('noticed_none'))];
    if (built.length) {
      const folded = node('details', { open: this.isOpen }, node('summary', {}, text('built', { count: built.length })), this.listOf(built));
      folded.addEventListener('toggle', () => { this.isOpen = folded.open; });
      parts.push(folded);
    }
    this.list.replaceChildren(...parts);
  }

  listOf(entries) {
    return node('ul', {}, ...entries.map(entry => this.item(entry)));
  }

  item(entry) {
    const verdict = node('span', { class: 'verdict' }, `${MARKS[entry.verdict]} ${entry.verdict}`);
    const what = node('button', { class: 'what' }, verdict, ` ${entry.statement}`);
    const item = node('li', { class: entry.verdict.split(' ')[0], 'data-statement': entry.statement }, what);
    const light = () => this.acts.light(entry.names), dim = () => this.acts.light([]);
    for (const [event, act] of [['mouseenter', light], ['mouseleave', dim], ['focusin', light], ['focusout', dim]]) item.addEventListener(event, act);
    what.addEventListener('click', light);
    if (entry.claimed && entry.noticed) item.append(node('p', { class: 'note' }, text('noticed_too')));
    if (entry.verdict === 'false' && !entry.drags.length) item.append(node('p', { class: 'note' }, text('false_always')));
    if (entry.verdict === 'false' && entry.drags.length) item.append(node('p', { class: 'note' }, entry.values.join(', ')));
    if (entry.verdict.startsWith('unsettled')) item.append(node('p', { class: 'note' }, this.adviceOf(entry)));
    item.append(this.actsOf(entry));
    return item;
  }

  // What an unsettled entry says and what helps: in full where it is the first with its limit.
  adviceOf({ verdict }) {
    const isFirst = !this.advised.has(verdict);
    this.advised.add(verdict);
    return text(isFirst ? verdict.replace(' ', '_') : 'unsettled_again');
  }

  actsOf(entry) {
    const acts = node('p', { class: 'acts' });
    if (entry.verdict === 'false' && entry.drags.length) {
      acts.append(node('button', { class: 'fail', 'aria-label': text('show_failing_of', entry), onclick: () => this.acts.fail(entry) }, text('show_failing')));
    }
    if (!entry.verdict.startsWith('unsettled') && (entry.claimed || !entry.built)) {
      acts.append(node('button', { class: 'certify', 'aria-label': text('certificate_of', entry), onclick: () => this.certify(entry) }, text('certificate')));
    }
    return acts;
  }

  // The certificate of an entry, and the program's check of it.
  async certify(entry) {
    const { certificate } = await this.acts.asking(() => ask('certify', { script: this.acts.script(), statement: entry.statement }));
    const isOne = certificate.startsWith('{');
    byId('certificate-title').textContent = text('certificate_of', entry);
    byId('certificate-says').textContent = text(isOne ? 'certificate_says' : 'certificate_unsettled');
    byId('certificate-text').value = certificate;
    byId('certificate-answer').textContent = isOne ? text('checking') : '';
    byId('certificate-save').onclick = () => this.acts.save('certificate.json', `${certificate}\n`);
    byId('certificate').showModal();
    if (isOne) byId('certificate-answer').textContent = (await this.acts.asking(() => ask('check', { certificate }))).answer;
  }
}
