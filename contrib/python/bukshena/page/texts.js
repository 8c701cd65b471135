// All texts of the page stand in one table, texts.json. The server hands it out with the start.

let table = {};

export function setTexts(texts) {
  table = texts;
  for (const node of document.querySelectorAll('[data-text]')) node.textContent = text(node.dataset.text);
  for (const node of document.querySelectorAll('[data-label]')) node.setAttribute('aria-label', text(node.dataset.label));
  for (const node of document.querySelectorAll('[data-title]')) node.title = text(node.dataset.title);
}

export function text(key, filled = {}) {
  return (table[key] ?? key).replace(/\{(\w+)\}/g, (whole, name) => filled[name] ?? whole).trim();
}

export function node(tag, attributes = {}, ...children) {
  const made = document.createElement(tag);
  for (const [name, value] of Object.entries(attributes)) {
    if (name.startsWith('on')) made.addEventListener(name.slice(2), value);
    else if (value !== null && value !== false) made.setAttribute(name, value === true ? '' : value);
  }
  made.append(...children);
  return made;
}
