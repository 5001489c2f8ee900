"""Visits of who solves exercises, for tests/page/visits.py: that no pane tells what is asked, tries, hints, other numbers, and what is saved."""
from seen import text_of
from suite import same

# At the start, in the middle and at the first blank of each exercise: what is told of the routes that it asks for. All other steps, and all
# blanks, are those of tests/page/page_exercises.mjs.
TOLD = '''(async () => {
  const page = window.wrappedJSObject ?? window, byId = id => document.getElementById(id), faults = [], all = words => [...document.querySelectorAll(words)];
  const names = all('#scripts > div').map(script => script.dataset.name).filter(name => name.startsWith('exercise-'));
  for (const name of names) {
    await page.openNamed(name);
    page.go(Infinity);
    const asked = all('#checks .blank label').map(label => / of (\\S+) for (\\S+) is/.exec(label.textContent.replace(/\\s+/g, ' ')).slice(1)), last = Number(byId('slider').value);
    if (asked.length === 0) faults.push(`${name} asks nothing at its end`);
    for (const step of new Set([0, Math.floor(last / 2), last])) {
      page.go(step);
      for (const [router, prefix] of asked) {
        const table = all('#tables > div').find(one => (one.querySelector('caption') ?? one).textContent.trim() === router);
        const row = table && [...table.querySelectorAll('tr[data-prefix]')].find(one => one.dataset.prefix === prefix), says = row && [...row.cells].slice(1).map(cell => cell.textContent.trim()).join(' ').trim();
        if (!/^\\? \\? \\?\\s*$/.test(says)) faults.push(`${name}, step ${step}: ${router} has ${says}`);
        const told = all('#events button, #detail td, #drawing title').map(one => one.textContent).filter(text => text.includes(`${router}`) && text.includes(`${prefix} at `) && !/: a blank asks/.test(text));
        if (told.some(text => text.startsWith(router) || / at \\d+$/.test(text) && text.includes(`${router} receives`))) faults.push(`${name}, step ${step}: ${told}`);
      }
      if (byId('verdict').textContent || byId('tally').textContent || document.querySelector('#plot')) faults.push(`${name}, step ${step}: a verdict`);
    }
  }
  return [names.length > 12, faults.slice(0, 5).join('; ')];
})()'''


class Solver:
    """`page` is the browser; `click`, `comes`, `still` and `read` are those of a visit."""

    def exercises(self):
        same('what the exercises tell', self.page.promised(TOLD), [True, ''])
        self.open(f'{self.url}?solve#exercise-02-line')
        self.solve()
        self.save()
        self.others()

    def answer(self, text, number=0):
        """Types an answer into a blank that is seen, and presses Enter."""
        self.page.value(f'(() => {{ const blank = document.querySelectorAll("[data-blank]")[{number}]; blank.value = ""; blank.focus(); }})()')
        for key in (*text, 'Enter'):
            self.page.press(key)

    def to_end(self):
        self.page.value('document.activeElement.blur()')
        self.page.press('End')
        self.still()

    def solve(self):
        """R0 says 1, and the link costs R1 2; R2 has heard nothing. In the second round R1 says 3, over a link that costs 5."""
        self.to_end()
        same('the blanks', self.page.value('document.querySelectorAll("[data-blank]").length'), 2)
        self.click('round')
        self.comes('nothing is done', f'{text_of("#editing")}.startsWith("This is an exercise")')
        self.click('close the message')
        self.click('hint')
        self.comes('there is the equation', f'{text_of("#checks .hint")}.startsWith("R0 advertises 1, and to receive it costs R1 2.")')
        self.answer('7')
        self.comes('it is wrong', f'{text_of("#checks .bad")} === "✗ not 7"')
        self.answer('3')
        self.comes('it is right', f'{text_of("#editing")}.startsWith("Right. 1 of 4, 0 at the first try.")')
        self.still()
        self.open(f'{self.url}?again')
        self.comes('the tries are kept', 'document.getElementById("script").value.includes("expect 1 2001:db8::/32 3 # try 2")')
        for text in ('none', '1', '8'):
            self.to_end()
            filled = self.page.value('document.querySelectorAll("#gutter .met").length')
            self.answer(text)
            self.comes('one more is filled in', f'document.querySelectorAll("#gutter .met").length > {filled}')
            self.still()
        self.comes('it is solved', f'{text_of("#progress")} === "4 of 4, 3 at the first try."')

    def save(self):
        self.click('save the solution')
        with open(self.page.downloaded('own-exercise-02-line-solved.lab')) as file:
            solved = file.read().splitlines()
        same('the end of the solution', solved[-1], '# Solved: exercise-02-line.lab, 4 of 4, 3 at the first try.')
        same('its answers', [line for line in solved if line.startswith('expect')],
             ['expect 1 2001:db8::/32 3 # try 2', 'expect 2 2001:db8::/32 none # first try', 'expect 0 2001:db8::/32 1 # first try',
              'expect 2 2001:db8::/32 8 # first try'])
        self.click('save the exercise')
        with open(self.page.downloaded('own-exercise-02-line-blank.lab')) as file:
            same('its blanks', [line[-1] for line in file.read().splitlines() if line.startswith('expect')], ['?'] * 4)

    def others(self):
        self.click('again with other numbers')
        self.comes('there is another network', f'{text_of("#caption")}.includes("Its costs are of seed")')
        same('its blanks', self.read('#progress'), '0 of 4, 0 at the first try.')
        scripts = []
        for number in (1, 2):
            self.open(f'{self.url}?seed{number}#exercise-02-line&seed=7')
            self.comes('it is that of the seed', f'{text_of("#caption")}.includes("of seed 7.")')
            scripts.append(self.page.value('document.getElementById("script").value'))
        same('whether a seed is the same twice', scripts[0] == scripts[1], True)
