"""What is seen of the laboratory's page, as expressions of JavaScript, for tests/page/visits.py."""
import json

ROUTE = '2001:db8::/32'
# The point to click of what is named so: a button or a field by its words, a thing of the drawing by its title.
NAMED = '''const nameOf = element => element.getAttribute('aria-label') ?? element.querySelector(':scope > title')?.textContent
    ?? element.labels?.[0]?.textContent ?? element.textContent;
  const isNamed = element => nameOf(element).trim().replace(/\\s+/g, ' ') === name;'''
FIND = '''(name => {
  ''' + NAMED + '''
  const found = [...document.querySelectorAll('button, select, input, svg g')].filter(isNamed).find(element => element.checkVisibility());
  if (!found) return null;
  found.scrollIntoView({ block: 'nearest' });
  // Firefox scrolls to no part of a drawing.
  const { top, bottom } = found.getBoundingClientRect();
  scrollBy(0, bottom > innerHeight ? bottom - innerHeight : Math.min(top, 0));
  const line = found.querySelector('path.wire, path.way'), box = found.getBoundingClientRect();
  const at = part => {
    if (!line) return [box.x + part * box.width, box.y + box.height / 2];
    const { x, y } = line.getPointAtLength(part * line.getTotalLength()).matrixTransform(line.getScreenCTM());
    return [x, y];
  };
  return [.5, .4, .6, .3, .7].map(at).find(([x, y]) => found.contains(document.elementFromPoint(x, y))) ?? null;
})'''
METRICS = '''[...document.querySelectorAll('#tables > div')].map(table => table.querySelector('td.metric')?.textContent ?? '-').join(' ')'''
# Whether what has the focus is named so.
IS_FOCUSED = '(name => { ' + NAMED + ' return isNamed(document.activeElement); })'
STILL = 'document.getElementById("drawing").getAttribute("aria-busy") !== "true"'
# The drafts that the browser keeps, and the text of one.
NAMES_KEPT = 'Object.keys(localStorage).filter(key => key.startsWith("ripngd draft ")).map(key => key.split(" ")[3]).sort().join()'
TEXT_KEPT = '''(name => JSON.parse(localStorage.getItem(Object.keys(localStorage).find(key => key.endsWith(` ${name}`)))).text)'''


# What is wider than its place, as a window and as a cell of a table; what a finger would not hit, below 24 pixels.
WIDE = '''[...document.querySelectorAll('#tables table:not(.matrix) :is(th, td, td .link)')].filter(text => text.scrollWidth > text.clientWidth + 1)
  .map(text => text.textContent).concat(document.documentElement.scrollWidth > innerWidth ? ['the page'] : []).join()'''
# What is cut off in lists, of all that there is to choose. What a list has beside its text is known from its width where it may have
# what it wants.
CUT_OFF = '''(() => {
  const pen = document.createElement('canvas').getContext('2d');
  return [...document.querySelectorAll('select')].filter(list => list.checkVisibility()).flatMap(list => {
    const room = list.offsetWidth, textsOf = options => [...options].map(option => option.textContent);
    pen.font = getComputedStyle(list).font;
    const widthOf = text => pen.measureText(text).width;
    Object.assign(list.style, { width: 'auto', maxWidth: 'none', flex: 'none' });
    const beside = list.offsetWidth - Math.max(...textsOf(list.options).map(widthOf));
    Object.assign(list.style, { width: '', maxWidth: '', flex: '' });
    return textsOf(list.options).filter(text => widthOf(text) + beside > room + 2);
  }).join();
})()'''
SMALL = '''[...document.querySelectorAll('button, select, input, [role=button]:not(.link-line)')].filter(target => target.checkVisibility()).filter(target => {
  const { width, height } = target.getBoundingClientRect();
  return width < 23.9 || height < 23.9 && target.type !== 'range';
}).map(target => target.getAttribute('aria-label') ?? target.textContent).join()'''
SHOWN = '''['header button', '#editor', '#acts', '#tables table', '#drawing svg'].filter(words => document.querySelector(words).checkVisibility()).join()'''


def text_of(selector):
    return f'(document.querySelector({json.dumps(selector)})?.textContent ?? "").trim().replace(/\\s+/g, " ")'
