"""What a newcomer does with the laboratory's page, at each width, by clicks alone and by keys alone, for tests/page/visits.py."""
import json

from seen import IS_FOCUSED, METRICS, ROUTE, WIDE, text_of
from suite import Failed, same

# The widths, each with its height. By clicks `phone` does it at 500 pixels, and `newcomer` at 1,400.
HEIGHTS = {500: 900, 900: 900, 1400: 900, 1920: 1080}
IS_CUT = 'document.querySelector("#drawing .wire.cut") !== null'
BY_WIDTH = ('clicks at 900', 'clicks at 1920', *(f'keys at {width}' for width in HEIGHTS))


class Newcomer:
    """`page` is the browser; `click`, `comes`, `happens`, `read` and `recorded` are those of a visit."""

    def ring(self, width, way):
        """Builds a ring of five, breaks a link, watches it heal, asks why, sees where a packet goes, and sends the recording."""
        self.page.size(width, HEIGHTS[width])
        does = getattr(self, f'by_{way}')
        does('make')
        self.comes('there is a ring of five', 'document.querySelectorAll("#drawing .router").length === 5')
        self.healed(does, '1 2 3 3 2')
        does('cut')
        self.comes('the link is cut', IS_CUT)
        does('until something changes')
        self.comes('it is said', f'{text_of("#editing")}.startsWith("A route changed in round")')
        self.still()
        same('what is cut off while routes time out', self.page.value(WIDE), '')
        self.healed(does, '1 2 3 4 5')
        does('why')
        self.comes('the page says why', f'{text_of("#detail h2")} === "Why has R4 metric 5 for {ROUTE}?"')
        same('the sum', self.read('#sum b'), '1 + 1 + 1 + 1 + 1 = 5')
        same('the hops of the walk', self.page.value('document.querySelectorAll("#drawing .hop").length'), 4)
        does('packet')
        self.comes('the page says where a packet goes', f'{text_of("#detail h2")} === "Where does a packet from R4 for {ROUTE} go?"')
        same('the way', self.read('#packet b'), 'R4 → R3 → R2 → R1 → R0')
        same('its hops', self.page.value('document.querySelectorAll("#hops tbody tr").length'), 4)
        same('what is too wide', self.page.value('document.documentElement.scrollWidth > innerWidth'), False)
        # Firefox, beside all else that runs, opens a film later than a test waits; `newcomer` opens one in it.
        self.recorded(lambda: does('export recording'), lambda: does('last'), is_opened=type(self.page).__name__ == 'Chromium')

    def healed(self, does, metrics):
        for _ in range(2):
            self.happens(lambda: does('five rounds'), lambda: does('last'))
        self.comes(f'the metrics are {metrics}', f'{METRICS} === {json.dumps(metrics)}')

    def by_clicks(self, act):
        clicks = {'cut': ('link 4 of R0 and R4', 'cut the link', 'close'), 'why': (f'{ROUTE} at R4: why metric 5?',),
                  'packet': ('hop by hop, or to another address',), 'export recording': ('close', 'export recording')}
        # On a narrow window a message of before may lie over what is clicked.
        if self.page.value('document.querySelector("#editing.toast button[data-act=hush]") !== null'):
            self.click('close the message')
        for name in clicks.get(act, (act,)):
            self.click(name)
            if name == 'cut the link':
                self.comes('the link is cut', IS_CUT)

    def by_keys(self, act):
        letters = {'five rounds': 'f', 'until something changes': 'u', 'packet': 'g', 'last': 'End'}
        things = {'cut': ('link 4 of R0 and R4', 'c'), 'why': (f'R4, metric 5 for {ROUTE}', 'w')}
        if act in letters:
            return self.page.press(letters[act])
        if act in things:
            thing, letter = things[act]
            self.key_to(thing, within='#drawing')
            return self.page.press(letter)
        self.key_to(act, backwards=act != 'make')
        return self.page.press('Enter')

    # ---- Keys alone ----
    def key_to(self, name, backwards=False, within=None, most=160):
        """Tab, or Shift and Tab, until what is named so has the focus; in a pane, Tab comes to it, and arrows to the thing."""
        if not within:
            return self.presses(['Tab'] * most, f'{IS_FOCUSED}({json.dumps(name)})', name, 'Shift' if backwards else None)
        self.presses(['Tab'] * most, f'document.activeElement.closest({json.dumps(within)}) !== null', within)
        return self.presses(['ArrowDown'] * 60 + ['ArrowUp'] * 120, f'{IS_FOCUSED}({json.dumps(name)})', name)

    def presses(self, keys, expression, what, modifier=None):
        if self.page.value(expression):
            return
        for key in keys:
            self.page.press(key, modifier)
            if self.page.value(expression):
                return
        raise Failed(f'no key comes to {what!r}, but to {self.page.value("document.activeElement.outerHTML.slice(0, 90)")!r}')
