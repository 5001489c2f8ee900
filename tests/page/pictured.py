"""Visits of who looks at what stands beside the network, for tests/page/visits.py: the time diagram, next hops and packets that run, other
versions of the network, hosts that are no routers, and a network from a list."""
import json

from seen import text_of
from suite import same

# The arrows of the time diagram: what is told of the first that is later than the step, and where it leads.
LATER = '(({ dataset, ariaLabel }) => [dataset.choose, ariaLabel])(document.querySelector("#times .message.later:not(.lost)"))'
CURSOR = '''(() => {
  const { top, bottom } = document.getElementById('timeline').getBoundingClientRect(), at = document.querySelector('#times .cursor').getBoundingClientRect();
  return at.top >= top && at.bottom <= bottom + 1;
})()'''
RUNNER = '''(({ x, y }) => [Math.round(x), Math.round(y)])(document.querySelector('.run .runner').getBoundingClientRect())'''
ASIDE = '''[...document.querySelectorAll('#networks > div:not([hidden])')].map(pane => [...pane.querySelectorAll('.metric')].map(badge => badge.querySelector('text').textContent).join(' ')).join(' | ')'''
SIZES = ((500, 900), (900, 900), (1400, 900), (1920, 1080))


class Pictured:
    """`page` is the browser; `click`, `comes`, `happens`, `still`, `open` and `read` are those of a visit."""

    def choose_from(self, name, value):
        self.page.value(f'(list => {{ list.value = {json.dumps(value)}; list.dispatchEvent(new Event("change", {{ bubbles: true }})); }})(document.querySelector({json.dumps(name)}))')

    def count(self, selector):
        return self.page.value(f'document.querySelectorAll({json.dumps(selector)}).length')

    def diagram(self):
        """At each width, and in `present`: the step is in sight in the time diagram, and a click on an arrow leads to where it comes."""
        for width, height in SIZES:
            self.page.size(width, height)
            self.open(f'{self.url}?{width}#ring-of-three&step=40')
            self.comes('it is step 40', f'{text_of("#where")}.startsWith("step 40 of")')
            self.click('time diagram')
            self.diagram_leads(width)
            if width == 1400:
                self.click('present')
                self.diagram_leads('1400, in a room')
            same(f'what is too wide at {width}', self.page.value('document.documentElement.scrollWidth > innerWidth'), False)
        self.open(f'{self.url}?embedded#ring-of-three&step=40&embed')
        same('what another page shows', [self.page.value(f'document.querySelector("{one}").checkVisibility()') for one in ('#network', '#slider', '#caption', '#views', '#timeline')],
             [True, True, True, False, False])

    def diagram_leads(self, where):
        self.comes('there is a time diagram', 'document.querySelectorAll("#times .message").length > 10')
        same(f'whether the step is in sight at {where}', self.page.value(CURSOR), True)
        chosen, label = self.page.value(LATER)
        self.click(label)
        self.comes(f'it is {chosen}', f'{text_of("#where")}.startsWith("step {int(chosen.split()[1]) + 1} of")')
        same(f'what comes there at {where}', label.split(' comes')[0].replace('datagram', 'receives datagram').split(' of')[0] in self.read('#events .now'), True)
        self.page.press('ArrowLeft')
        self.comes('it is the step before', f'{text_of("#where")}.startsWith("step {int(chosen.split()[1])} of")')
        same(f'whether it is in sight then at {where}', self.page.value(CURSOR), True)

    def packets(self):
        """Next hops are seen at each step, and a packet runs until it arrives or dies."""
        self.click('make')
        self.comes('there is a ring of five', 'document.querySelectorAll("#drawing .router").length === 5')
        self.happens(lambda: self.click('five rounds'))
        self.page.press('h')
        same('next hops', self.count('#drawing .packet'), 4)
        self.click('send packets')
        self.comes('each router sends one', 'document.querySelectorAll("#drawing .run").length === 5')
        before = self.page.value(RUNNER)
        self.comes('they run', f'JSON.stringify({RUNNER}) !== {json.dumps(json.dumps(before, separators=(",", ":")))}')
        self.click('link 4 of R0 and R4')
        self.click('cut the link')
        self.comes('those of R3 and R4 are lost', 'document.querySelectorAll("#drawing .run.lost").length === 2')
        self.page.press('x')
        same('without packets', self.count('#drawing .run'), 0)

    def versions(self):
        """The ring of the lesson under three horizons, with one slider; with triggered updates it is sooner; an act changes all."""
        self.open(f'{self.url}#ring-of-three&step=40')
        self.choose_from('#versus', 'horizons')
        self.comes('there are three networks', 'document.querySelectorAll(".version").length === 2')
        same('their names', self.page.value('[...document.querySelectorAll("#networks [data-run]:not([hidden])")].map(pane => pane.dataset.run).join()'),
             'poisoned reverse,no split horizon,split horizon')
        here = self.page.value(ASIDE)
        same('whether they differ', len(set(here.split(' | '))), 3)
        same('whether that is told', 'no split horizon' in self.read('#versions'), True)
        self.page.press('End')
        same('whether all have gone on', self.page.value(ASIDE) != here, True)
        self.click('present')
        same('whether each has room in a room', self.page.value('[...document.querySelectorAll("#networks > div:not([hidden])")].every(({ clientWidth, clientHeight }) => clientWidth > 200 && clientHeight > 150)'), True)
        self.click('present')
        self.choose_from('#versus', 'triggered')
        self.comes('there are two networks', 'document.querySelectorAll(".version").length === 1 && document.querySelector(".version").dataset.run.includes("triggered")')
        self.happens(lambda: self.click('round'))
        self.comes('there are two again', 'document.querySelectorAll(".version").length === 1')
        self.choose_from('#versus', '')
        self.comes('there is one', 'document.querySelectorAll(".version").length === 0')

    def forged(self):
        """A forged Response on a link comes to both of its routers, and is drawn with who sent it."""
        self.click('make')
        self.comes('there is a ring of five', 'document.querySelectorAll("#drawing .router").length === 5')
        self.happens(lambda: self.click('five rounds'))
        self.click('link 2 of R2 and R3')
        self.happens(lambda: self.click('forged on the link (believed)'))
        same('the host', self.page.value('document.querySelector("#drawing .outsider title").textContent'), 'fe80::66, a host that is no router on the link, sends a forged Response to R3 and R2')
        same('its arrows', self.count('#drawing .outsider .forged'), 2)

    def pasted(self):
        """A list that is wrong is refused with its line; put right it is a network, which has its names; and nothing moves as it grows."""
        for width in (500, 1400):
            self.page.size(width, 900)
            self.open(f'{self.url}?{width}#line')
            self.choose_from('[name=shape]', 'list')
            self.click('make')
            self.comes('the list is asked for', 'document.getElementById("pasting").open')
            self.page.value('document.getElementById("edges").value = "Bonn Berlin 3\\nBerlin Prague 30\\nPrague Bonn"')
            self.click('make this network')
            same('what is wrong', self.read('#pasted'), 'line 2: the cost 30 is not 1 to 15')
            self.page.value('document.getElementById("edges").value = "Bonn Berlin 3\\nBerlin Prague 10\\nPrague Bonn"')
            self.click('make this network')
            self.comes('there are three routers', 'document.querySelectorAll("#drawing .router").length === 3')
            self.still()
            same('their names', self.page.value('[...document.querySelectorAll("#drawing .router")].map(router => router.querySelector("title").textContent.split(",")[0]).join()'), 'Bonn,Berlin,Prague')
            self.page.value('localStorage.clear(), sessionStorage.clear()')
        self.grown()

    def grown(self):
        """A router more, which is linked to Prague: how the others stand to each other is as before."""
        apart = '''(places => places.slice(0, 3).map(([x, y], at) => Math.round(100 * Math.hypot(x - places[(at + 1) % 3][0], y - places[(at + 1) % 3][1])
          / Math.hypot(places[0][0] - places[1][0], places[0][1] - places[1][1]))).join())([...document.querySelectorAll('#drawing .router > circle:first-child')].map(({ cx, cy }) => [cx.baseVal.value, cy.baseVal.value]))'''
        before = self.page.value(apart)
        self.page.value('document.querySelector("#drawing .router[data-router=\\"2\\"]").dispatchEvent(new MouseEvent("click", { bubbles: true }))')
        self.click('link them')
        self.comes('there are four routers', 'document.querySelectorAll("#drawing .router").length === 4')
        self.still()
        same('how they stand', self.page.value(apart), before)
