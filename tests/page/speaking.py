"""Visits of readers of other languages, for tests/page/visits.py: all that the page says in a tour is said in theirs."""
import json

from seen import text_of
from suite import same

LANGUAGES = {'de': ('Runde', 'Router starten', 'Pakete für'), 'es': ('ronda', 'arrancan', 'Los paquetes para')}
# Steps through some scripts, and chooses what there is. What panes say of all of them tests/page/page_words.mjs looks up.
TOUR = '''(async () => {
  const page = window.wrappedJSObject ?? window, byId = id => document.getElementById(id), pause = () => new Promise(resolve => { setTimeout(resolve, 5); });
  const chooseAll = async () => {
    const router = document.querySelector('.router.moved')?.dataset.router ?? 0, route = document.querySelector('[data-choose^="route "]')?.dataset.choose;
    const datagram = [...document.querySelectorAll('.pile')].at(-1)?.dataset.choose, prefix = route?.split(' ')[2];
    for (const thing of [`router ${router}`, `iface ${router} 0`, `route ${router} ${prefix}`, `packet ${router} ${prefix}`, datagram]) {
      page.choose(thing);
      await pause();
    }
    page.choose(null);
    await pause();
  };
  for (const name of ['13-loops-and-black-holes.lab', '19-liar.lab', '31-asking.lab', 'exercise-02-line.lab']) {
    await page.openNamed(name);
    const last = Number(byId('slider').max);
    for (const part of [0, 0.5, 1]) {
      page.go(Math.round(part * last));
      await pause();
      if (part > 0) await chooseAll();
    }
    for (const hint of document.querySelectorAll('[data-act=hint]')) hint.click();
    await pause();
  }
  return true;
})()'''
# A ring is built, cut, broken and mended, routers fail, and in the middle of it a round is done, a datagram lost and a link removed.
ACTED = '''(async () => {
  const page = window.wrappedJSObject ?? window, byId = id => document.getElementById(id), pause = () => new Promise(resolve => { setTimeout(resolve, 50); });
  const settled = async () => { do await pause(); while (byId('drawing').getAttribute('aria-busy') === 'true'); };
  const act = async (name, within = '') => { document.querySelector(`${within} [data-act=${name}]`).click(); await settled(); page.go(Infinity); await pause(); };
  await page.openScript(page.networkScript('ring', 5), 'ring-5.lab');
  for (const name of ['round', 'rounds', 'untilChange', 'ticks']) await act(name);
  page.choose(document.querySelector('.pile').dataset.choose);
  await act('lose', '#detail');
  for (const text of ['cut 0', 'silent 3', 'mend 0', 'speaks 3', 'down 1 900000', 'up 1 901000', 'cost 0 0 902000 9', 'restart 2 903000', 'gain 1 904000 2001:db8:1::/48 7']) {
    await page.putIn(text);
    page.go(Infinity);
    await settled();
  }
  page.go(Number(byId('slider').value) - 9);
  await act('round');
  page.choose('iface 2 0');
  await act('remove', '#detail');
  await act('toBranch', '#branches');
  await act('undo');
  return true;
})()'''


class Speaker:
    """`page` is the browser; `click`, `comes`, `happens`, `still` and `read` are those of a visit."""

    def languages(self):
        for code, (word, start, packets) in LANGUAGES.items():
            self.page.open(f'{self.url}?{code}#01-one-hop&lang={code}')
            self.comes('the page is up', f'/^\\S+ 1 /.test({text_of("#where")})')
            same('the language of the page', self.page.value('document.documentElement.lang'), code)
            same('a button', self.read('[data-act=round]'), word)
            same('an event', start in self.read('#events'), True)
            self.page.promised(TOUR)
            self.page.promised(ACTED)
            self.said_by_keys()
            same(f'whether {packets} is said', packets in self.read('#verdict'), True)
            same(f'what is not said in {code}', self.page.value('(window.wrappedJSObject ?? window).unsaid()'), '')

    def said_by_keys(self):
        for name in ('quiz', 'help'):
            self.page.value(f'document.querySelector("[data-act={name}]").click()')
        self.page.press('Escape')
        self.page.value('document.querySelector("[data-act=quiz]").click()')
        for letter in 'wclgm':
            self.page.press(letter)
        self.comes('something is said', f'{text_of("#verdict")} !== ""')
