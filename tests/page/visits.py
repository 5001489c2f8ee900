#!/usr/bin/env python3
"""Visits to the laboratory's page by real clicks and keys, for tests/page/page.py.

    tests/page/visits.py chromium|firefox VISIT URL      says nothing, or why it went wrong, with status 1

The newcomer knows nothing but what stands in the page: each thing is found by its name as it is read there, has to be in sight,
and has to be what lies under the pointer. What metrics have to come is worked out by hand, for a ring of five of which R0 owns
the prefix: the hops to R0 the shorter way around, and 1.
"""
import json
import pathlib
import sys

sys.dont_write_bytecode = True
sys.path.append(str(pathlib.Path(__file__).resolve().parents[1] / "support"))
import browser
from newcomer import BY_WIDTH, Newcomer
from page_arranged import Arranged
from pictured import Pictured
from reading import Reader
from solving import Solver
from speaking import Speaker
from seen import CUT_OFF, FIND, METRICS, NAMES_KEPT, ROUTE, SHOWN, SMALL, STILL, TEXT_KEPT, WIDE, text_of
from suite import Failed, same

NAMES = ('newcomer', 'keyboard', 'sizes', 'phone', 'room', 'drafts', 'undone', 'places', 'first', 'lessons', 'branches', 'diagram', 'packets', 'versions', 'forged', 'pasted', 'exercises', 'languages', 'bars', 'film', *BY_WIDTH)


class Visit(Newcomer, Reader, Pictured, Solver, Speaker, Arranged):
    def __init__(self, page, url):
        self.page, self.url = page, url
        self.open(url)

    def open(self, url):
        self.page.open(url)
        self.comes('the page is up', f'{text_of("#where")}.startsWith("step ")')

    def comes(self, what, expression):
        try:
            return self.page.wait(expression, 60)
        except TimeoutError:
            raise Failed(f'it is never so that {what}; the page says {self.read("#editing")!r}') from None

    def read(self, selector):
        return self.page.value(text_of(selector))

    def click(self, name):
        self.page.click_at(*self.comes(f'{name!r} can be clicked', f'{FIND}({json.dumps(name)})'))

    def still(self):
        """Until what was run has been played."""
        self.comes('the page is still', STILL)

    def happens(self, act, then=lambda: None):
        """An act that adds steps, until they have been played; or a later act ends that."""
        steps = self.page.value('Number(document.getElementById("slider").max)')
        act()
        self.comes('steps are added', f'Number(document.getElementById("slider").max) > {steps}')
        then()
        self.still()

    def rounds(self, metrics):
        """Twice five rounds, 300 seconds, longer than any timeout; and what the routers hold then."""
        for _ in range(2):
            self.happens(lambda: self.click('five rounds'))
        self.comes(f'the metrics are {metrics}', f'{METRICS} === {json.dumps(metrics)}')

    # ---- The visits ----
    def newcomer(self):
        self.click('make')
        self.comes('there is a ring of five', 'document.querySelectorAll("#drawing .router").length === 5')
        for word in ('round', 'Click a link', 'ask why'):
            same(f'whether the page says {word!r}', word in self.read('#caption'), True)
        self.rounds('1 2 3 3 2')
        same('the tally', '5 of 5 routes are shortest paths' in self.read('#tally'), True)
        self.outage('link 4 of R0 and R4', 'cut the link', '#drawing .wire.cut', '1 2 3 4 5')
        self.outage('link 4 of R0 and R4, cut', 'mend the link', '#drawing:not(:has(.cut))', '1 2 3 3 2')
        self.outage(f'R1, metric 2 for {ROUTE}', 'let it fail', '#drawing .router.silent', '1 2 4 3 2')
        self.outage('R1, down', 'bring it up', '#drawing:not(:has(.silent))', '1 2 3 3 2')
        self.why()
        self.recorded()
        self.why()
        # Who gets a film goes on from it.
        self.rounds('1 2 3 3 2')
        self.outage('link 4 of R0 and R4', 'cut the link', '#drawing .wire.cut', '1 2 3 4 5')

    def recorded(self, export=None, to_last=None, is_opened=True):
        """What is sent away is saved whole; if it is opened, it has the same end."""
        (export or (lambda: self.click('export recording')))()
        film = self.page.downloaded('ring-5.html')
        if not is_opened:
            return
        where = self.read('#where')
        self.open(f'file://{film}')
        steps = where[where.index(' of '):where.index(',') + 1]
        self.comes('the film has its steps', f'{text_of("#where")}.includes({json.dumps(steps)})')
        (to_last or (lambda: self.click('last')))()
        self.comes('the film is at its last step', f'{text_of("#where")} === {json.dumps(where)}')

    def phone(self):
        """On a narrow window: what a newcomer needs is in the first view, what was clicked is in sight, and so is what is said of it."""
        self.page.size(500, 900)
        in_view = """(words => { const { top, bottom } = document.querySelector(words).getBoundingClientRect(); return top >= 0 && bottom <= innerHeight; })"""
        for words in ('[data-act=make]', '#undo', '#step', '#drawing', '[data-act=round]'):
            same(f'whether {words} is in the first view', self.page.value(f'{in_view}({json.dumps(words)})'), True)
        self.click('make')
        self.comes('there is a ring of five', 'document.querySelectorAll("#drawing .router").length === 5')
        self.happens(lambda: self.click('five rounds'))
        self.click('link 4 of R0 and R4')
        same('whether the act is in sight', self.page.value(f'{in_view}("#detail [data-key=c]")'), True)
        self.click('cut the link')
        self.comes('the link is cut', 'document.querySelector("#drawing .wire.cut") !== null')
        self.page.value('document.querySelector("#detail [name=metric]").value = 99')
        self.click('close')
        self.click('until something changes')
        self.comes('it is said', f'{text_of("#editing")}.startsWith("A route changed")')
        same('whether it is in sight', self.page.value(f'{in_view}("#editing")'), True)
        self.still()
        self.page.value('document.querySelector("#editing button[data-act=hush]")?.click()')
        self.rounds('1 2 3 4 5')
        self.click(f'{ROUTE} at R4: why metric 5?')
        same('the sum', self.read('#sum b'), '1 + 1 + 1 + 1 + 1 = 5')
        same('the packet', self.read('#packet b'), 'R4 → R3 → R2 → R1 → R0')
        for router, metric in enumerate((1, 2, 3, 4, 5)):
            self.click('close')
            self.page.value('scrollTo(0, 0)')
            self.click(f'{ROUTE} at R{router}: why metric {metric}?')
            bottom, top = self.page.value(f'[document.querySelector(".router[data-router=\\"{router}\\"] circle").getBoundingClientRect().bottom, '
                                          'document.getElementById("detail").getBoundingClientRect().top]')
            same(f'whether R{router} is above what is told of it, {bottom} and {top}', bottom <= top, True)
        self.click('close')
        self.recorded()

    def room(self):
        """For a projector the drawing is scaled to the window, metrics are as large as routers, and why and round are at hand."""
        self.page.size(1920, 1080)
        self.click('make')
        self.comes('there is a ring of five', 'document.querySelectorAll("#drawing .router").length === 5')
        self.happens(lambda: self.click('five rounds'))
        self.click('present')
        height = "(words => document.querySelector(words).getBoundingClientRect().height)"
        share = self.page.value(f'{height}("#parts") / {height}("#drawing")')
        same(f'whether the drawing ({share}) fills its pane', share > 0.75, True)
        sizes = self.page.value(f'[".metric .plate", ".router > circle"].map({height})')
        same(f'whether metrics are as large as routers: {sizes}', sizes[0] > 60 and sizes[0] > 0.75 * sizes[1], True)
        self.happens(lambda: self.click('round'))
        self.click(f'{ROUTE} at R3: why metric 3?')
        same('the sum', self.read('#sum b'), '1 + 1 + 1 = 3')
        same('what is too wide', self.page.value('document.documentElement.scrollWidth > innerWidth'), False)
        self.click('quiz')
        same('what is hidden', self.page.value('document.querySelector(".metric text").textContent'), '?')
        self.page.size(500, 900)
        room = self.page.value('[document.getElementById("drawing").clientWidth > 300, document.getElementById("quiz").clientWidth > 300, document.documentElement.scrollWidth <= innerWidth]')
        same('whether drawing and quiz have room on a narrow window', room, [True, True, True])

    def drafts(self):
        """A shared script, another example and another tab destroy nothing; states outlive a reload."""
        script, text = 'document.getElementById("script").value', self.page.value
        self.click('make')
        self.comes('there is a ring of five', 'document.querySelectorAll("#drawing .router").length === 5')
        self.happens(lambda: self.click('round'))
        own = text(script)
        theirs = json.dumps('# theirs\nrouter\niface fe80::1 1 1280 0\nown 2001:db8::/32 0\ncold 0\n')
        link = self.page.promised(f'(window.wrappedJSObject ?? window).packed({theirs})')
        text(f'location.hash = "name=ring-5.lab&script={link}"')
        self.comes('the shared script is there', f'{script}.startsWith("# theirs")')
        self.still()
        self.comes('it is said whose it is', f'{text_of("#editing")}.startsWith("This script came with the link.")')
        same('what is kept', text(NAMES_KEPT), 'ring-5.lab')
        same('whether it is the own one', text(f'{TEXT_KEPT}("ring-5.lab")') == own, True)
        self.reload_at_first()
        same('what is there after a reload', text(script).startswith('# theirs'), True)
        same('what is said then', 'Your last script' in self.read('#editing'), False)
        self.click('undo')
        self.comes('the own network is back', f'{script} === {json.dumps(own)}')
        self.still()
        self.click('redo')
        self.comes('theirs is back', f'{script}.startsWith("# theirs")')
        self.still()
        # Once it is changed it is kept, under a name of its own.
        self.happens(lambda: self.click('round'))
        same('what is kept then', text(NAMES_KEPT), 'ring-5-2.lab,ring-5.lab')
        self.tabs()

    def tabs(self):
        """Two tabs edit one draft: what the second writes gets another name, and the first comes back as it was."""
        script, value = 'document.getElementById("script").value', self.page.value
        self.click('undo')
        self.still()
        self.click('undo')
        self.still()
        own, mine = value(script), value('JSON.stringify({ ...sessionStorage })')
        value('localStorage.setItem(Object.keys(localStorage).find(key => key.endsWith(" ring-5.lab")), JSON.stringify({ text: "# another tab", at: Date.now() }))')
        self.happens(lambda: self.click('round'))
        same('the draft of the other tab', value(f'{TEXT_KEPT}("ring-5.lab")'), '# another tab')
        same('the names', value(NAMES_KEPT), 'ring-5-2.lab,ring-5-3.lab,ring-5.lab')
        value('sessionStorage.clear()')
        self.open(f'{self.url}#line')
        same('a new tab', self.read('#caption') != '', True)
        value(f'Object.entries({mine}).forEach(([key, text]) => sessionStorage.setItem(key, text))')
        self.page.value('history.replaceState(null, "", "#step=1")')
        self.reload()
        same('the first tab', value(script) == own, True)

    def undone(self):
        """Undo comes back to the step that was shown before the act, over a reload too, and redo to the step that undo left."""
        self.click('make')
        self.comes('there is a ring of five', 'document.querySelectorAll("#drawing .router").length === 5')
        for _ in range(2):
            self.happens(lambda: self.click('round'))
        self.click('first')
        for _ in range(3):
            self.page.press('ArrowRight')
        self.page.value('(place => { place.value = "end"; place.dispatchEvent(new Event("change")); })(document.getElementById("place"))')
        before = self.read('#where')
        same('the step', before.split(' of ')[0], 'step 4')
        self.happens(lambda: self.click('round'))
        after = self.read('#where')
        same('whether the act went on to its end', after == before, False)
        for _ in range(2):
            self.reload_at_first()
            same('the step after a reload', self.read('#where').split(' of ')[0], 'step 1')
            self.page.press('End')
            same('the last step', self.read('#where'), after)
            self.click('undo')
            self.comes(f'the step is {before!r} again', f'{text_of("#where")} === {json.dumps(before)}')
            self.still()
            self.click('redo')
            self.comes(f'the step is {after!r} again', f'{text_of("#where")} === {json.dumps(after)}')
            self.still()

    def reload_at_first(self):
        """The page follows its step in the address, a moment later; then the first step is asked for."""
        self.comes('the address has followed', 'location.hash.includes(`step=${document.getElementById("where").textContent.split(" ")[1]}`)')
        self.page.value('history.replaceState(null, "", "#step=1")')
        self.reload()

    def reload(self):
        self.open(self.page.value('location.href'))

    def places(self):
        """Where a router was dragged it stays, over a reload, in a film and in the script."""
        self.click('make')
        self.comes('there is a ring of five', 'document.querySelectorAll("#drawing .router").length === 5')
        at = "['cx', 'cy'].map(name => Math.round(document.querySelector('.router[data-router=\"2\"] circle').getAttribute(name)))"
        before = self.page.value(at)
        self.page.value("""(() => {
          const drag = (kind, x, y) => (kind === 'pointerdown' ? document.querySelector('.router[data-router="2"]') : window)
            .dispatchEvent(new PointerEvent(kind, { clientX: x, clientY: y, bubbles: true }));
          drag('pointerdown', 50, 50), drag('pointermove', 10, 20), drag('pointerup', 10, 20);
        })()""")
        place = self.page.value(at)
        same('how far it was moved', [before[0] - place[0], before[1] - place[1]], [40, 30])
        same('whether the script has it', '#places 2 ' in self.page.value('document.getElementById("script").value'), True)
        self.reload_at_first()
        self.is_near('after a reload', at, place)
        if type(self.page).__name__ == 'Chromium':
            self.recorded()
            self.is_near('in the film', at, place)

    def is_near(self, where, at, place):
        """The script has hundredths of a link's length."""
        found = self.page.value(at)
        same(f'whether it is at {place} {where}: {found}', max(abs(a - b) for a, b in zip(found, place)) <= 2, True)

    def outage(self, thing, act, sign, metrics):
        if not self.page.value(f'{FIND}({json.dumps(act)})'):
            self.click(thing)
        self.click(act)
        self.comes(f'{thing} is shown so', f'document.querySelector({json.dumps(sign)}) !== null')
        self.rounds(metrics)

    def why(self):
        self.click(f'{ROUTE} at R4: why metric 2?')
        self.comes('the page says why', f'{text_of("#detail h2")} === "Why has R4 metric 2 for {ROUTE}?"')
        same('the sum', self.read('#sum b'), '1 + 1 = 2')
        same('the packet', self.read('#packet b'), 'R4 → R0')

    def keyboard(self):
        """Every pane is reached by Tab, a chosen example stays when one steps, and typing, Enter and Escape do what they say."""
        focus = 'document.activeElement.id || document.activeElement.dataset.act || document.activeElement.dataset.choose?.split(" ")[0]'
        self.page.press('Tab')
        same('what Tab comes to first', self.page.value('document.activeElement.textContent'), 'to the network')
        self.page.press('Enter')
        same('where that leads', self.page.value(focus), 'router')
        self.page.press('ArrowRight')
        same('what is heard of a step', self.read('#happened').startswith('line '), True)
        self.page.press('Home')
        self.open(self.url)
        missed = {'examples', 'first', 'load', 'script', 'step', 'router', 'round', 'route'}
        for _ in range(60):
            self.page.press('Tab')
            missed.discard(self.page.value(focus))
            if not missed:
                break
        same('what Tab does not reach', sorted(missed), [])
        self.page.value('document.getElementById("examples").focus()')
        example = 'document.getElementById("examples").value'
        chosen = self.page.value(example)
        for key in ('ArrowRight', 'ArrowRight', 'ArrowLeft', 'End', 'Home', 'ArrowRight'):
            self.page.press(key)
        same('the example', self.page.value(example), chosen)
        same('the step', self.read('#where').split(' of ')[0], 'step 2')
        self.page.value('document.querySelector("#tables [tabindex=\\"0\\"]").focus()')
        self.page.press('Enter')
        self.comes('a route is asked', f'{text_of("#detail h2")}.startsWith("Why ")')
        same('the focus', self.page.value(focus), 'route')
        self.page.press('Escape')
        same('what is chosen', self.read('#detail h2'), '')
        self.typing()

    def typing(self):
        script = 'document.getElementById("script").value'
        self.page.value('document.getElementById("script").focus()')
        before = self.page.value(script)
        for key in 'xyz':
            self.page.press(key)
        typed = self.page.value(script)
        same('what was typed', len(typed) - len(before), 3)
        self.page.press('z', 'Control')
        same('whether the script is as before', self.page.value(script) == before, True)
        self.page.press('y', 'Control')
        # The draft outlives the page.
        self.open(self.url)
        same('whether the draft is there again', self.page.value(script) == typed, True)

    def sizes(self):
        """Nothing is cut off on narrow windows, steps are at hand beside the tables, and targets are large enough."""
        self.page.value('document.getElementById("last").click()')
        for width, height in ((360, 700), (500, 900), (900, 900), (1400, 900), (1920, 1080)):
            self.page.size(width, height)
            same(f'what is too wide at {width}', self.page.value(WIDE), '')
            same(f'what is cut off in lists at {width}', self.page.value(CUT_OFF) if width > 500 else '', '')
            if width >= 1400:
                head = self.page.value('document.querySelector("header").getBoundingClientRect().height')
                same(f'whether the head, {head} pixels high, has one row at {width}', head < 50, True)
            self.page.value('document.getElementById("tables").scrollIntoView()')
            box = self.page.value('document.getElementById("step").getBoundingClientRect().top')
            same(f'whether one can step beside the tables at {width}', 0 <= box < height, True)
        same('what is too small to hit', self.page.value(SMALL), '')
        self.open(f'{self.url}#15-horizon')
        self.page.press('End')
        self.page.size(1400, 900)
        same('whether the head has one row beside a long script', self.page.value('document.querySelector("header").getBoundingClientRect().height < 50'), True)
        self.page.size(950, 500)
        room = self.page.value('document.getElementById("drawing").clientHeight > 150 && (({ scrollHeight, clientHeight }) => '
                               'scrollHeight - clientHeight < 2)(document.getElementById("detail"))')
        same('whether drawing and detail have room at 950 x 500', room, True)
        if isinstance(self.page, browser.Chromium):
            self.media()

    def media(self):
        self.page.size(1400, 900)
        self.page.media('print')
        same('what is printed', self.page.value(SHOWN), '#tables table,#drawing svg')
        motion = f'getComputedStyle(document.querySelector("#drawing .flying")).animationName'
        self.page.media()
        self.page.value('document.getElementById("first").click()')
        while not self.page.value('document.querySelector("#drawing .flying") !== null'):
            self.page.press('ArrowRight')
        same('the motion', self.page.value(motion), 'fly')
        self.page.media(prefers_reduced_motion='reduce')
        same('the motion for who wants less', self.page.value(motion), 'none')


def visit(page, url, name):
    way, _, width = name.partition(' at ')
    if width:
        Visit(page, url).ring(int(width), way)
    else:
        getattr(Visit(page, url), name)()


def main(kind, name, url):
    page = browser.open_browser(kind)
    try:
        visit(page, url, name)
    except Failed as fault:
        sys.exit(str(fault))
    finally:
        page.close()


if __name__ == '__main__':
    if len(sys.argv) != 4 or sys.argv[1] not in browser.PROGRAMS or sys.argv[2] not in NAMES:
        sys.exit(__doc__)
    main(*sys.argv[1:])
