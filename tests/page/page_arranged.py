"""Visits of who arranges the page, for tests/page/visits.py: bars between panes, which are dragged and moved by keys; and films, which run by
themselves."""
from seen import WIDE, text_of
from suite import same

# The bars that are seen at a width, each with the pane that it is of and which side of that it measures, and how far and which way it is
# dragged. On a narrow window panes lie below one another, and there is none.
BARS = {
    500: {}, 900: {},
    1100: {'right': ('right', 'width', (-40, 0)), 'foot': ('left', 'height', (0, -40)), 'stage': ('stage', 'height', (0, 30))},
    1400: {'left': ('left', 'width', (40, 0)), 'right': ('right', 'width', (40, 0)), 'stage': ('stage', 'height', (0, 40)), 'editor': ('editor', 'height', (0, -30))},
    1920: {'left': ('left', 'width', (-60, 0)), 'right': ('right', 'width', (-60, 0)), 'stage': ('stage', 'height', (0, -40)), 'editor': ('editor', 'height', (0, 30))},
}
SEEN = '[...document.querySelectorAll("[data-bar]")].filter(bar => bar.checkVisibility()).map(bar => bar.dataset.bar).sort()'
KEYS = {'width': ('ArrowLeft', 'ArrowRight'), 'height': ('ArrowUp', 'ArrowDown')}


class Arranged:
    """`page` is the browser; `click`, `comes`, `happens`, `still`, `open` and `read` are those of a visit."""

    def side(self, pane, axis):
        return self.page.value(f'document.getElementById("{pane}").getBoundingClientRect().{axis}')

    def bars(self):
        """At each width, each bar: it gives its pane as much room as it is dragged, over a reload too; an arrow moves it; Enter puts it back."""
        for width, wanted in BARS.items():
            self.page.size(width, 900)
            self.page.value('localStorage.clear(), sessionStorage.clear()')
            self.open(f'{self.url}?{width}#line&step=9')
            same(f'the bars at {width}', self.page.value(SEEN), sorted(wanted))
            for name, (pane, axis, way) in wanted.items():
                self.bar(f'{name} at {width}', name, pane, axis, way)
            same(f'what is too wide at {width}', self.page.value(WIDE), '')

    def bar(self, where, name, pane, axis, way):
        at = f'(({{ x, y, width, height }}) => [x + width / 2, y + height / 2])(document.querySelector("[data-bar={name}]").getBoundingClientRect())'
        had, step, (x, y) = self.side(pane, axis), self.read('#where'), self.page.value(at)
        self.page.drag((x, y), (x + way[0], y + way[1]))
        grows = sum(way) if name not in ('right', 'foot') else -sum(way)
        self.is_so(f'the {axis} of {where}, dragged', pane, axis, had + grows)
        self.open(self.page.value('location.href'))
        self.is_so(f'the {axis} of {where}, after a reload', pane, axis, had + grows)
        less, more = KEYS[axis] if name not in ('right', 'foot') else KEYS[axis][::-1]
        self.page.value(f'document.querySelector("[data-bar={name}]").focus()')
        for key, wanted in ((less, grows - 24), (more, grows), (more, grows + 24)):
            self.page.press(key)
            self.is_so(f'the {axis} of {where}, after {key}', pane, axis, had + wanted)
        self.page.press('Enter')
        self.is_so(f'the {axis} of {where}, put back', pane, axis, had)
        same(f'the step beside {where}', self.read('#where'), step)
        same(f'what is read of {where}', self.page.value(f'Number(document.querySelector("[data-bar={name}]").ariaValueNow)'), round(had))

    def is_so(self, what, pane, axis, wanted):
        self.comes(f'{what} is {wanted}, and not {self.side(pane, axis)}', f'Math.abs(document.getElementById("{pane}").getBoundingClientRect().{axis} - {wanted}) < 1.5')

    def film(self):
        """A film runs by itself, with its script folded, to its end; a key stops it; and an act in it is a step more, with the script."""
        self.open(f'{self.url}#line')
        self.click('export recording')
        film = f'file://{self.page.downloaded("line.html")}'
        self.page.open(film)
        for step in (2, 3):
            self.comes(f'it has come to step {step}', f'Number({text_of("#where")}.split(" ")[1]) >= {step}')
        same('what is seen', self.folded(), [False, True])
        self.page.press('Escape')
        stopped = self.read('#where')
        same('whether it runs', self.read('#run'), 'run')
        self.page.press('ArrowRight')
        same('the step after a key', int(self.read('#where').split(' ')[1]), int(stopped.split(' ')[1]) + 1)
        self.click('show the script, and change it')
        same('what is seen then', self.folded(), [True, False])
        self.page.value('localStorage.clear(), sessionStorage.clear()')
        self.open(f'{film}#step=1')
        self.page.press('End')
        self.happens(lambda: self.click('round'))
        same('what is seen after an act', self.folded(), [True, False])

    def folded(self):
        return self.page.value('["#script", "#folded"].map(one => document.querySelector(one).checkVisibility())')
