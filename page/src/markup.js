// Markup: texts for innerHTML in which every value is escaped.

class Markup { constructor(text) { this.text = text; } }
export const html = (texts, ...values) =>
  new Markup(texts.reduce((text, next, index) => text + escaped(values[index - 1]) + next));
function escaped(value) {
  if (value instanceof Markup) return value.text;
  if (Array.isArray(value)) return value.map(escaped).join('');
  return String(value ?? '').replace(/[&<>"]/g, sign => `&#${sign.charCodeAt(0)};`);
}
export const classes = (...names) => names.filter(Boolean).join(' ');

// The attributes of what a click, Enter or space chooses: a step, a line or a thing of the network, by its text. In a
// pane that the arrows up and down go through, Tab comes to one of them (`showing.js`).
export const choice = (text, label, chosen) => html`data-choose="${text}" tabindex="-1" role="button"
  aria-label="${label}" aria-pressed="${text === chosen}"`;
