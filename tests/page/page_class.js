// What a teacher, a class and a newcomer do: put into tests/page/page.js by tests/page/page.py.

// ---- Rounds, as they are seen ----
const chosenEvent = text => all('#events button').find(button => button.textContent.includes(text));
const metrics = () => all('#drawing .metric').map(badge => badge.textContent.trim()).join(' ');
const changed = () => all('#drawing .router.changed').map(router => `R${router.dataset.router}`).join(' ') || 'none';
async function make(shape, many) {
  one('[name=shape]').value = shape;
  one('[name=many]').value = many;
  click(one('[data-act=make]'));
  await settled();
}
async function act(name) {
  click(one(`[data-act=${name}]`));
  await settled();
}

// A round is played: datagrams fly, and at its end all that it changed is marked, also when stepping by line, forth and back.
async function seeRounds() {
  await make('ring', 5);
  click(one('[data-act=round]'));
  let frames = 0, flights = 0;
  while (!view.span) await after(5);
  for (let shown = -1; view.span; await after(5)) {
    if (view.step === shown) continue;
    shown = view.step;
    frames++;
    flights += all('#drawing .flying').length;
  }
  tell(frames > 1, flights, changed(), metrics());
  tell(all('#tables tr.new').map(row => row.dataset.router), all('#drawing .pile.lost').length);
  await act('round');
  tell(changed(), metrics());
  one('#by').value = 'line';
  press('back');
  await settled();
  tell(changed(), metrics(), textOf('#where').split(',')[0]);
  press('step');
  await settled();
  tell(changed(), metrics(), all('#events .since').length);
}

// What an update advertises on each link is told where it is sent, the poison too; and a timer that sends nothing says why.
async function seeUpdates() {
  await make('line', 3);
  await act('round');
  await act('round');
  const at = view.trace.steps.findLastIndex(({ record }) => record.event?.kind === 'tick' && record.router === 1);
  go(at);
  tell(...all('#updates tbody tr').map(row => [...row.cells].map(cell => cell.textContent.trim().replace(/\s+/g, ' ')).join(' ')));
  await type(`${script.value}drop 0 20000 2001:db8::/32\ntick 0 20000 0\ngain 0 20500 2001:db8::/32 0\ntick 0 20500 0\n`);
  press('last');
  tell(textOf('#detail .happened b'), all('#detail p').map(text => text.textContent).find(text => text.includes('delayed'))?.replace(/\s+/g, ' '));
}

// ---- Losing, and forging ----
async function loseAll() {
  await make('line', 3);
  await act('round');
  await act('round');
  click(chosenEvent('receives datagram 7 '));
  click(one('#detail [data-act=lose]'));
  await settled();
  tell(metrics(), all('#drawing .pile.lost').length, said().replace(/ ?undo$/, ''));
  press('step');
  tell(all('#drawing .pile.lost').length);
  await make('line', 3);
  await act('ticks');
  click(one('#drawing .pile.fresh'));
  click(buttonOf('lose it, deliver the rest'));
  await settled();
  tell(script.value.trimEnd().split('\n').slice(-2), metrics());
  key('z', { ctrlKey: true });
  await settled();
  await act('hear');
  tell(lastLine(), metrics());
  await act('ticks');
  await act('round');
  tell(said().includes('under way are lost'));
}

async function forge() {
  await make('line', 3);
  await act('rounds');
  const forged = async (name, field = 'metric', value = '1') => {
    if (view.chosen !== 'iface 2 0') click(one('.cost[data-choose="iface 2 0"]'));
    set(`#detail [name=${field}]`, value);
    click(buttonOf(name));
    await settled();
    tell(textOf('#events li:last-child').replace(/^\d+ /, ''), metrics());
  };
  await forged('forged from outside the link (refused)');
  await forged('forged on the link (believed)');
  await forged('it sends that Response');
  tell(said());
  tell(textOf('#tally'), all('#tables td.metric .bad').length);
}

// ---- What is cut ----
async function cutLinks() {
  await make('ring', 5);
  await act('rounds');
  click(one('#drawing [aria-label^="link 4 of R0 and R4"]'));
  click(buttonOf('cut the link'));
  await settled();
  click(one('#tables tr[data-router="4"]'));
  tell(textOf('#outage'), all('#drawing .hop.broken').length, `${textOf('#packet')} ${textOf('#lost')}`);
  await act('untilChange');
  tell(lastLine(), said().replace(/ ?undo$/, ''), one('#tables tr[data-router="4"] .metric').dataset.was);
  click(one('#drawing svg'));
  await act('rounds');
  await act('rounds');
  await act('untilChange');
  tell(said().startsWith('No route changes'), metrics());
  // A link more comes up now, and a cost holds at both ends.
  const at = () => all('#drawing .router > circle:first-child').map(({ cx, cy }) => [cx, cy].map(length => Math.round(length.baseVal.value)).join()).join(' '), place = at();
  click(one('.router[data-router="0"]'));
  one('#detail [name=other]').value = '2';
  click(buttonOf('link them'));
  await settled();
  tell(at() === place);
  tell(script.value.includes('cold 0\ncut 5\n'), lastLine(), said().replace(/ ?undo$/, ''));
  await act('round');
  tell(metrics());
  click(one('.cost[data-choose="iface 0 0"]'));
  set('#detail [name=cost]', '9');
  click(buttonOf('set it at both ends'));
  await settled();
  tell(view.trace.steps.at(-1).routers.slice(0, 2).map(router => router.interfaces[0].cost));
}

// ---- Lessons ----
const lessonNamed = async name => { one('#examples').value = name; one('#examples').dispatchEvent(new Event('change')); await settled(); };
async function takeLessons() {
  await lessonNamed('01-one-hop.lab');
  tell(textOf('#lesson'), one('[data-act=lessonBefore]').disabled, textOf('#caption'));
  await act('lessonAfter');
  tell(one('#name').value, textOf('#lesson'), textOf('#caption').includes('--'));
  await lessonNamed('11-ring-of-three.lab');
  one('#by').value = 'remark';
  for (let at = 0; at < 3; at++) { press('step'); await settled(); }
  tell(textOf('#caption'), metrics(), all('#checks .check').map(check => check.textContent.trim().replace(/\s+/g, ' ')));
  tell(all('#gutter .met').length, script.value.split('\n').filter(line => line.startsWith('expect')).length);
  await type(script.value.replace('expect 1 2001:db8::/32 2', 'expect 1 2001:db8::/32 5'));
  tell(all('#gutter .met').length, all('#gutter .unmet').length, textOf('#gutter .unmet'), said());
}

// Within another page: the drawing, its remark and the steps, and a way to all of it.
async function seeEmbedded() {
  const isSeen = selector => one(selector).checkVisibility() && one(selector).getBoundingClientRect().height > 10;
  tell(one('#name').value, textOf('#where').split(',')[0], view.chosen);
  tell(['#prose', '#network', '#step', '#slider', '#verdict', '#whole', '#editor', '#events', '#tables', '#acts', '#detail', '#examples'].filter(isSeen));
  press('step');
  await after(500);
  tell(location.hash, one('#whole').getAttribute('href'), document.documentElement.scrollHeight <= innerHeight);
}

// A question has its reason; the same moment is seen without asking, alone and beside, by clicks and by a key.
async function askAround() {
  await lessonNamed('01-one-hop.lab');
  const pane = one('#asking'), [without, asked, beside] = all('#asking button'), aside = () => all('#beside .metric').map(badge => badge.textContent.trim()).join(' ');
  const ways = () => all('#asking [aria-pressed=true]').map(button => button.textContent).join();
  tell(pane.checkVisibility());
  await lessonNamed('31-asking.lab');
  go(view.trace.steps.findIndex(({ record }) => record.record === 'asks'));
  tell(pane.checkVisibility(), ways(), textOf('#events .now'));
  press('step');
  await settled();
  tell(textOf('#detail .question'), all('#drawing .pile.asks').length, textOf('#drawing .pile.asks title').split(', ').at(-1));
  click(one('#drawing .pile.asks'));
  tell(textOf('#detail .question'), textOf('#decoded').split(' ')[0]);
  const line = script.value.split('\n').indexOf('tell 3 77500') + 1;
  go(view.trace.steps.findLastIndex(({ record }) => record.line === line));
  click(without);
  await settled();
  tell(ways(), metrics(), textOf('#where').split(', ')[1], all('#checks .check').length, view.chosen);
  await act('round');
  tell(said());
  click(asked);
  tell(ways(), metrics(), textOf('#asked'), said());
  click(beside);
  tell(ways(), metrics(), aside(), one('#drawing').clientWidth < 0.6 * one('#stage').clientWidth, one('#beside').clientWidth > 200);
  document.activeElement.blur();
  key('a');
  await settled();
  tell(ways(), metrics(), one('#beside').hidden);
  key('a');
  key('a');
  press('last');
  await act('round');
  tell(ways(), metrics(), aside(), one('#name').value);
  click(one('[data-act=quiz]'));
  tell(pane.checkVisibility(), one('#beside').hidden);
}

async function fillBlanks() {
  await lessonNamed('exercise-02-line.lab');
  one('#by').value = 'line';
  press('step');
  await settled();
  const fill = async text => { set('[data-blank]', text); click(one('#checks [data-act=answer]')); await settled(); };
  tell(all('#checks .blank').length, textOf('#checks').includes('found'));
  await fill('x');
  tell(said());
  await fill('2');
  tell(textOf('#checks .blank .bad'));
  await fill('3');
  tell(textOf('#checks .met'), all('#checks .blank').length, one('#name').value, script.value.includes('expect 1 2001:db8::/32 3'));
  await fill('none');
  tell(all('#checks .met').length, textOf('#where').split(',')[0]);
}

// Names stand in place of numbers wherever a router is named.
// A router is called by its name everywhere. In the drawing a name stands in the circle if its letters are large enough there; else
// beside it, with what the router originates.
async function nameRouters() {
  await lessonNamed('10-poisoned-reverse.lab');
  await make('line', 3);
  await act('rounds');
  const name = async text => {
    click(one('.router[data-router="0"]'));
    set('#detail [name=name]', text);
    click(buttonOf('name it'));
    await settled();
    click(one('#drawing svg'));
    click(one('#tables tr[data-router="1"]'));
    press('last');
    tell(textOf('#sum'), one('#tables caption').textContent, one('#drawing .router text').textContent, one('#drawing .prefix').textContent);
  };
  await name('Berlin');
  tell(all('#events .now, #tables td:nth-child(4), #walk, #packet').filter(text => /\bR0\b/.test(text.textContent)).length);
  await name('Bonn');
}

// In a quiz nothing tells a metric; a guess is marked, and what is right is seen.
async function playQuiz() {
  await make('line', 3);
  await act('rounds');
  click(one('[data-act=quiz]'));
  const isSeen = selector => all(selector).some(element => element.checkVisibility({ visibilityProperty: true }) && element.textContent.trim());
  tell(['#caption', '#tables', '#tally', '#detail', '#events', '#checks', '#gutter'].filter(isSeen), metrics());
  const guess = (router, text) => { const input = one(`[data-guess="${router}"]`); input.value = text; input.focus(); key('Enter'); };
  guess(0, '1');
  guess(1, '7');
  guess(1, '2');
  click(one('[data-act=reveal][data-router="2"]'));
  tell(metrics(), textOf('#score'));
  click(one('[data-act=quiz]'));
  tell(isSeen('#tables'), metrics());
}

// From ten routers on the matrix stands first; a cell asks why.
async function seeMatrix() {
  await make('line', 12);
  await act('rounds');
  tell(all('#tables .matrix tbody tr').length, all('#tables .matrix tbody td').slice(0, 7).map(cell => cell.textContent.trim()));
  click(one('#tables .matrix [data-choose="route 3 2001:db8::/32"]'));
  tell(textOf('#detail h2'));
  await act('matrix');
  tell(all('#tables table').length);
}

// A link goes by its button, and comes back by undo; a router goes by a key, and what follows is numbered anew.
async function removeThings() {
  const network = () => [all('#drawing .router').length, all('#drawing .link-line').length, metrics()].join();
  await make('ring', 5);
  await act('rounds');
  click(one('#drawing [aria-label^="link 4 of R0 and R4"]'));
  click(buttonOf('remove the link'));
  await settled();
  tell(network(), said().replace(/ ?undo$/, ''), textOf('#detail h2'));
  await act('undo');
  tell(network());
  one('.router[data-router="1"]').focus();
  key('Delete');
  await settled();
  tell(network(), said().replace(/ ?undo$/, ''));
  await lessonNamed('11-ring-of-three.lab');
  click(one('.router[data-router="2"]'));
  click(buttonOf('remove the router'));
  await settled();
  tell(network(), /set aside as #off/.test(said()), script.value.includes('\n#off expect '), view.refused === null);
}

// A router is asked where a packet goes: a loop, a text that is no address, what is so at the end, and its metric.
async function followPackets() {
  await lessonNamed('13-loops-and-black-holes.lab');
  go(view.trace.steps.findIndex(({ record }) => record.record === 'print'));
  click(one('.router[data-router="1"]'));
  set('#detail [name=target]', '2001:DB8::1');
  click(buttonOf('where a packet goes'));
  tell(textOf('#packet'), all('#drawing .packet.astray').length, all('#hops tbody tr').length, all('#drawing .hop').length);
  await after(500);
  tell(location.hash.split('&').slice(-2));
  click(buttonOf('from every router'));
  tell(textOf('#fates'), all('#drawing .packet').length);
  click(buttonOf('from every router'));
  set('#detail [name=target]', '1:2');
  one('#detail [name=target]').focus();
  key('Enter');
  tell(said());
  press('last');
  set('#detail [name=target]', '::1');
  one('#detail [name=target]').focus();
  key('Enter');
  tell(textOf('#packet'), all('#drawing .cross').length);
  click(one('.router[data-router="2"]'));
  document.activeElement.blur();
  key('g');
  tell(textOf('#packet'), textOf('#detail h2'));
  key('w');
  tell(textOf('#detail h2'), all('#drawing .hop').length, all('#drawing .packet').length);
}

// Forty routers: a filter of their matrix and of their tables; more room for the drawing, and all of it again.
async function seeCrowds() {
  await make('ring', 40);
  await act('rounds');
  const rows = () => all('#tables tbody tr').length, sizes = () => { const { width, height } = one('#network').getBoundingClientRect(); return [width > one('#drawing').clientWidth, height > one('#drawing').clientHeight, one('#network').getAttribute('class')]; };
  tell(rows(), sizes());
  set('#filter', 'r2 r3');
  tell(rows(), all('#tables th[scope=row]').map(head => head.textContent));
  await act('matrix');
  tell(all('#tables caption').map(caption => caption.textContent));
  set('#filter', 'zz');
  tell(textOf('#tables'));
  set('#filter', '');
  tell(all('#tables > div').length);
  document.activeElement.blur();
  for (let times = 0; times < 4; times++) key('+');
  const pane = one('#drawing'), middle = (pane.scrollLeft + pane.clientWidth / 2) / pane.scrollWidth;
  tell(sizes(), Math.abs(middle - 0.5) < 0.02, all('#drawing .metric[role=button]').length > 0);
  key('0');
  tell(sizes());
  key('/');
  tell(document.activeElement.id);
}

// Single keys do what buttons do.
async function useLetters() {
  await make('ring', 5);
  document.activeElement.blur();
  const letter = async name => { document.activeElement.dispatchEvent(new KeyboardEvent('keydown', { key: name, bubbles: true, cancelable: true })); await settled(); };
  await letter('r');
  tell(lastLine());
  one('#drawing [aria-label^="link 4 "]').focus();
  await letter('c');
  tell(lastLine(), document.activeElement.getAttribute('aria-label'));
  await letter('c');
  tell(lastLine());
  one('.router[data-router="1"]').focus();
  await letter('w');
  tell(textOf('#detail h2'));
  await letter('Escape');
  document.activeElement.blur();
  click(chosenEvent('receives datagram 10 '));
  await letter('l');
  tell(script.value.includes('lose 10'));
  await letter('w');
  tell(said());
  for (const [name, where] of [['p', 'large'], ['q', 'quiz']]) { await letter(name); tell(document.body.classList.contains(where)); await letter(name); }
  await lessonNamed('01-one-hop.lab');
  one('#examples').blur();
  await letter('n');
  tell(one('#name').value);
  await letter('b');
  tell(one('#name').value);
}
