"""Visits of a reader of lessons, for tests/page/visits.py: the first page, what is seen of each lesson, and acts in the middle of
one, with the way back."""
import json

from seen import text_of
from suite import same

# Steps through each lesson: where router 0 stands, and whether some of what is said of it is cut off.
READ = '''(async () => {
  const page = window.wrappedJSObject ?? window, byId = id => document.getElementById(id), faults = [];
  const names = [...document.querySelectorAll('#scripts > [data-lesson]')].map(script => script.dataset.name);
  const isCut = element => element.clientHeight > 0 && element.scrollHeight > element.clientHeight + 1;
  for (const name of names) {
    await page.openNamed(name);
    const last = Number(byId('slider').max), places = new Set();
    for (let at = 0; at < 10; at++) {
      page.go(at === 9 ? last : Math.floor(at * last / 9));
      const circle = document.querySelector('.router circle'), [x, y] = ['cx', 'cy'].map(name => circle[name].baseVal.value), prose = byId('prose').getBoundingClientRect();
      const { top, left } = byId('network').getBoundingClientRect();
      places.add(`${(left + x).toFixed()} ${(top + y).toFixed()}`);
      if (['prose', 'caption', 'answer', 'checks'].some(id => isCut(byId(id))) || prose.bottom > innerHeight) faults.push(`${name} is cut off at part ${at}`);
    }
    if (places.size > 1) faults.push(`router 0 of ${name} stands at ${[...places]}`);
    if (!byId('answer').textContent) faults.push(`${name} shows no answer`);
  }
  return [names.length > 25, faults.join('; ')];
})()'''

# At the last step of each lesson: whether its answer is whole, and can be scrolled to.
ENDS = '''(async () => {
  const page = window.wrappedJSObject ?? window, byId = id => document.getElementById(id), faults = [];
  const names = [...document.querySelectorAll('#scripts > [data-lesson]')].map(script => script.dataset.name);
  const isCut = element => element.scrollHeight > element.clientHeight + 1 || element.scrollWidth > element.clientWidth + 1;
  for (const name of names) {
    await page.openNamed(name);
    page.go(Infinity);
    byId('answer').scrollIntoView({ block: 'nearest' });
    const { left, right, top, bottom, height } = byId('answer').getBoundingClientRect(), isSeen = left >= 0 && right <= innerWidth && height > 20;
    if (!byId('answer').textContent || !isSeen || ['prose', 'caption', 'answer'].some(id => isCut(byId(id)))) faults.push(`${name}: ${[left, right, top, bottom].map(Math.round)}`);
    else if (height < innerHeight / 2 && (top < 0 || bottom > innerHeight)) faults.push(`${name} stands at ${top} to ${bottom}`);
  }
  return [names.length > 25, faults.join('; ')];
})()'''


class Reader:
    """`page` is the browser; `click`, `comes`, `still` and `read` are those of a visit."""

    def lessons(self):
        """On wide windows a lesson is read whole at each step, its answer too, and nothing moves the drawing; on others its answer is whole."""
        for size in ((1400, 900), (1920, 1080)):
            self.page.size(*size)
            same(f'what is read at {size}', self.page.promised(READ), [True, ''])
        for size in ((500, 900), (900, 900), (1100, 900)):
            self.page.size(*size)
            same(f'what is read at the ends at {size}', self.page.promised(ENDS), [True, ''])

    def first(self):
        """A first visit says what the page is, and counts to infinity in three clicks."""
        same('the sentence', self.read('#welcome').startswith('This page runs routers that speak RIPng'), True)
        self.click('Count to infinity')
        self.click('stop')
        self.click('last')
        self.comes('a router was at 16', '[...document.querySelectorAll("#checks .met")].length > 0 && document.getElementById("answer").textContent.includes("16")')
        same('what is said then', self.read('#welcome') == '' or self.page.value('document.getElementById("welcome").hidden'), True)

    def branches(self):
        """In the middle of a lesson, at each width and in `present`, an act is done there; the lesson goes on as it was in another branch."""
        script, step = 'document.getElementById("script").value', '#where'
        for width, height, is_large in ((500, 900, False), (900, 900, False), (1400, 900, False), (1400, 900, True)):
            self.page.size(width, height)
            self.open(f'{self.url}?{width}{is_large}#07-dead-router&step=31')
            self.comes('it is step 31', f'{text_of(step)}.startsWith("step 31 of")')
            lesson, where = self.page.value(script), self.read(step)
            if is_large:
                self.click('present')
            self.page.value('document.querySelector(".link-line").focus()')
            self.page.press('c')
            self.comes('a link is cut', 'document.querySelector("#drawing .wire.cut") !== null')
            self.still()
            same('where the page stands', self.read(step).partition(', ')[2], where.partition(', ')[2])
            same('what is said', 'What followed is set aside' in self.read('#editing'), True)
            self.click('close the message')
            self.comes(f'branches are listed at {width}', f'{text_of("#branches")} !== ""')
            self.click('compare')
            self.comes('they are compared', 'document.getElementById("compare").open')
            same('whether both are told', self.page.value('document.querySelectorAll("#comparison th").length'), 4)
            self.page.press('Escape')
            self.click('go to it')
            self.comes('nothing is cut', 'document.querySelector("#drawing .wire.cut") === null')
            self.still()
            self.page.value('document.activeElement.blur()')
            self.page.press('k')
            self.comes('the link is cut again', f'{text_of("#branches")} !== "" && {script}.split("#branch 1")[0].includes("\\ncut ")')
            self.still()
            self.click('go to it')
            self.comes('it is the lesson', f'!{script}.split("#branch 1")[0].includes("\\ncut ")')
            self.still()
            self.click('drop it')
            self.comes('the lesson is as it was', f'{script} === {json.dumps(lesson)}')
            self.page.value('localStorage.clear(), sessionStorage.clear()')
            if is_large:
                self.click('present')
