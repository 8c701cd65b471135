// The tools: what each is chosen by, what it takes one after another, and the lines that it writes.
//
// A step is a kind, or `make` (a point that is there, or is made at the place), or `place`.

import { text } from './texts.js';

export const TOOLS = [
  { name: 'move', key: 'v', steps: [] },
  { name: 'point', key: 'p', steps: ['make'] },
  { name: 'join', key: 'l', steps: ['make', 'make'], makes: 'line' },
  { name: 'meet', key: 'm', steps: ['line', 'line'], makes: 'point' },
  { name: 'on', key: 'o', steps: ['line'], atPlace: true, makes: 'point' },
  { name: 'through', key: 't', steps: ['make', 'place'], makes: 'line' },
  { name: 'along', key: 'a', steps: ['make', 'make', 'place'], makes: 'point' },
  { name: 'pencil', key: 'e', steps: ['line', 'line', 'place'], makes: 'line' },
  { name: 'fixpoint', key: 'x', steps: ['place'], makes: 'point' },
  { name: 'line', key: 'f', steps: ['place', 'place'], makes: 'line' },
  { name: 'three', key: 'c', steps: ['any', 'like', 'like'], claims: true },
  { name: 'incident', key: 'i', steps: ['any', 'unlike'], claims: true },
  { name: 'same', key: 's', steps: ['any', 'like'], claims: true },
  { name: 'null', key: 'n', steps: ['any'], claims: true },
  { name: 'rename', key: 'r', steps: ['any'] },
  { name: 'drop', key: 'd', steps: ['any'] },
];

const GAPS_BEFORE = new Set(['point', 'three', 'rename']);
export const hasGapBefore = name => GAPS_BEFORE.has(name);

// The claim that chosen elements make by a tool.
export function claimOf(tool, elements) {
  const names = elements.map(element => element.name);
  const word = { three: elements[0].kind === 'point' ? 'collinear' : 'concurrent', incident: 'on', same: 'same', null: 'null' }[tool];
  if (word === 'on' && elements[0].kind === 'line') names.reverse();
  return `claim ${word} ${names.join(' ')}`;
}

// A name that is not in use: A to Z or a to z, and then with numbers.
export function freshName(kind, used) {
  const first = kind === 'point' ? 65 : 97;
  for (let round = 0; round < 100; round += 1) {
    for (let k = 0; k < 26; k += 1) {
      const name = String.fromCharCode(first + k) + (round || '');
      if (!used.has(name)) return name;
    }
  }
  return 'X999';
}

// A prefix for the names that a use of a tool makes, so that none of them is in use.
export function freshPrefix(tool, lines, used) {
  const own = lines.flatMap(line => line.split(/\s+/)).filter(word => /^\$[A-Za-z]/.test(word)).map(word => word.slice(1));
  for (let k = 1; k < 1000; k += 1) {
    const prefix = tool[0] + k;
    if (own.every(name => !used.has(prefix + name))) return prefix;
  }
  return tool[0];
}

// All words of a script, so that a new name is none that stood there, dropped ones too.
export function wordsOf(script) {
  return new Set(script.split(/[\s[\],]+/));
}

// The lines of a tool's body in a script.
export function bodyOf(name, script) {
  const lines = script.split('\n'), body = [];
  let isInside = false;
  for (const line of lines) {
    const words = line.trim().split(/\s+/);
    if (words[0] === 'tool') isInside = words[1] === name;
    else if (words[0] === 'end') isInside = false;
    else if (isInside) body.push(line);
  }
  return body;
}

// What the tool wants next, as a sentence.
export function promptOf(tool, count) {
  if (tool.use) {
    return text('say_use', { tool: tool.name, number: count + 1, count: tool.steps.length, kind: text(`kind_${tool.kinds[count]}`) });
  }
  const step = text(`say_${tool.name}_${count + 1}`);
  const lower = text(`say_${tool.name}_1`);
  const key = step !== `say_${tool.name}_${count + 1}` ? step : lower !== `say_${tool.name}_1` ? lower : text(`say_${tool.name}`);
  return key.replace('{ordinal}', text(['first', 'second', 'third'][count] ?? 'third'));
}
