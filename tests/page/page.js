// Put into the page by tests/page/page.py, with tests/page/page_class.js in it, behind its own script: does what a reader does, by the play that the
// address names (?PLAY), and reports what the page shows, a line each.
'use strict';

{
  const report = [];
  const all = (selector, within = document) => [...within.querySelectorAll(selector)];
  const one = selector => document.querySelector(selector);
  const click = element => element.dispatchEvent(new MouseEvent('click', { bubbles: true }));
  const press = id => document.getElementById(id).click();
  const textOf = selector => one(selector)?.textContent.trim().replace(/\s+/g, ' ') ?? 'nothing';
  const after = pause => new Promise(resolve => { setTimeout(resolve, pause); });
  // The page runs a script a while after the last key. What it says stays until then, however slow the machine is.
  const settled = async () => {
    await after(300);
    while (isRunning() || view.span) {
      clearTimeout(view.hushing);
      await after(20);
    }
    await after(20);
  };
  const key = (name, more = {}) => document.activeElement.dispatchEvent(new KeyboardEvent('keydown', { key: name, bubbles: true, cancelable: true, ...more }));
  const buttonOf = text => all('#detail button, #acts button').find(button => button.textContent === text);
  const set = (selector, value) => { one(selector).value = value; one(selector).dispatchEvent(new Event('input', { bubbles: true })); };
  // What the page says, without the button that takes it away.
  const said = () => (one('#editing').textContent.trim() ? textOf('#editing').replace(/ ?×$/, '') : '');
  const lastLine = () => script.value.trimEnd().split('\n').at(-1);
  const tell = (...facts) => report.push(facts.join(' | '));
  // The scripts that the page has run.
  const ran = [], trace = window.traced;
  window.traced = script => { ran.push(script); return trace(script); };

  async function type(text) {
    script.focus();
    set('#script', text);
    await settled();
  }

  // The rows of the tables, as `print` writes routes.
  const shownRoutes = () => all('#tables tbody tr:not(.gone)').map(row => {
    const [prefix, metric, , way, tag] = row.cells;
    return `${row.dataset.router} ${prefix.textContent} metric ${metric.textContent} tag ${tag.textContent} ${way.title}`;
  });

  // Clicks each usable route that is no own one, and counts those whose walk sums up to the metric in the row.
  function countWalks() {
    const keys = all('#tables tbody tr:not(.gone, .dying)').filter(row => row.cells[3].title !== 'own').map(row => ({ ...row.dataset }));
    const sums = keys.filter(({ router, prefix }) => {
      const rowOf = () => one(`#tables tr[data-router="${router}"][data-prefix="${prefix}"]`);
      click(rowOf());
      const hops = all('#walk tbody tr'), costs = hops.map(hop => Number(hop.cells[2].textContent)), metric = rowOf().cells[1].textContent.replace('!', '');
      const isSum = costs.reduce((sum, cost) => sum + cost, 1) === Number(metric) && all('#drawing path.hop').length === hops.length;
      if (!isSum) report.push(`wrong R${router} ${prefix} ${metric}: ${textOf('#sum')}`);
      return isSum;
    });
    if (keys.length > 0) click(one('#drawing svg'));
    return sums.length;
  }

  // Steps a script to its end and back, and has the page decode every datagram.
  function playFilm() {
    const steps = view.trace.steps.length;
    let walks = 0;
    for (let step = 1; step <= steps; step++) {
      if (!textOf('#where').startsWith(`step ${step} of ${steps},`)) report.push(`wrong ${textOf('#where')}`);
      if (textOf('#events .now').includes('print: ')) report.push(...shownRoutes().map(route => `print ${route}`), `tally ${textOf('#tally')}`);
      walks += countWalks();
      press('step');
    }
    for (let step = 1; step < steps; step++) press('back');
    report.push(`steps ${steps}`, `walks ${walks}`, textOf('#where'));
    report.push(...view.trace.datagrams.flatMap(({ bytes }) => decode(bytes).split('\n')).map(line => `show ${line}`));
  }

  // The sums behind a step, which the address names.
  const showAsked = () => report.push(textOf('#sum'), textOf('#walk tbody').replace(/line \d+/g, ''));
  const showWhere = () => { press('step'); tell(textOf('#where'), one('[data-choose][aria-pressed=true], tr.chosen') ? 'chosen' : 'nothing chosen'); };
  const showRefusals = () => report.push(...all('#events .bad').map(text => text.textContent));

  // Clicks a router and lets it tick, then writes a line that is refused.
  async function edit() {
    press('last');
    click(one('.router[data-router="0"]'));
    click(buttonOf('send what is due'));
    await settled();
    report.push(`appended ${lastLine()}`, `last ${textOf('#events li:last-child')}`, textOf('#where'), `marks ${all('#drawing .pile').length > 0}`);
    await type(`${script.value}tick 9 400 0\n`);
    report.push(`refused line ${textOf('#gutter .refused')}`, `last ${textOf('#events li:last-child')}`);
  }

  // A long run is called off by the next, by its button and by Escape; what is typed stays, and can be run again. Meanwhile the page steps.
  async function callOffRuns() {
    const good = script.value, begun = async () => {
      while (!said().startsWith('running')) await after(50);
    };
    const long = `${good}rounds 1000 60000 15000\n${'rounds 1000 +15000 15000\n'.repeat(99)}`;
    for (const stop of [() => press('step'), () => click(one('[data-act=stop]')), () => key('Escape')]) {
      set('#script', long);
      await begun();
      stop();
      tell(isRunning(), textOf('#where').split(',')[0], said(), script.value === long);
    }
    click(one('[data-act=again]'));
    await begun();
    const count = ran.length;
    set('#script', `${good}tick 0 400 0\n`);
    await settled();
    tell(ran.length - count, said(), textOf('#events li:last-child'));
  }

  // What keeps a trace from being shown is said: its length, want of memory, and a fault of the laboratory.
  async function sayFaults() {
    const good = script.value;
    await type(`${good}rounds 1000 60000 15000\n${'rounds 1000 +15000 15000\n'.repeat(24)}`);
    tell(said().replace(/\d+ MiB/, 'so many MiB'), lastLine());
    await type(good);
    for (const fault of ['it wants more memory than there is', 'the laboratory has stopped (unreachable)']) {
      window.traced = () => Promise.reject(new Error(fault));
      await type(`${script.value}# ${fault}\n`);
      tell(said(), lastLine());
    }
  }

  // Drafts have names of their own, one beside another, and each can be opened again; a link begins with the address that was set.
  async function keepDrafts() {
    const choose = async name => {
      Object.assign(one('#examples'), { value: name }).dispatchEvent(new Event('change'));
      await settled();
    };
    const listed = () => all('#examples optgroup')[0].label + all('#examples optgroup:first-of-type option').map(option => ` ${option.value}`).join('');
    tell(listed().startsWith('How routes come'), all('#examples optgroup').map(({ label }) => label));
    await type(`${script.value}# first\n`);
    tell(listed());
    await choose('line.lab');
    await type(`${script.value}# second\n`);
    tell(listed());
    await choose('own-line.lab');
    tell(lastLine(), one('#name').value);
    one('#name').value = 'mine.lab';
    one('#name').dispatchEvent(new Event('change'));
    tell(listed());
    press('redo');
    set('#place-of-page', 'https://example.org/lab.html');
    await share();
    set('#place-of-page', 'https://example.org/lab.html');
    await after(200);
    const link = new URL(one('#link').value);
    tell(link.origin + link.pathname, await unpacked(new URLSearchParams(link.hash.slice(1)).get('script')) === script.value);
    one('#sharing').close();
  }

  // A click whose line is refused leaves no line; one with a blank field, or a cost past 15, makes none; behind a refused
  // line nothing is put.
  async function refuseClicks() {
    press('last');
    const asked = () => ran.length;
    click(one('.router[data-router="0"]'));
    set('#detail [name=prefix]', 'ff00::/8');
    click(buttonOf('originate it'));
    await settled();
    tell(lastLine(), said());
    const before = asked();
    set('#detail [name=now]', '');
    click(buttonOf('send what is due'));
    click(one('#drawing svg'));
    click(one('.cost'));
    set('#detail [name=cost]', '99');
    click(buttonOf('set it'));
    await settled();
    tell(lastLine(), asked() - before);
    set('#detail [name=now]', '400');
    set('#detail [name=cost]', '7');
    click(buttonOf('set it'));
    await settled();
    tell(lastLine(), textOf('#events li:last-child'));
    await type(`${script.value}tick 9 400 0\n`);
    click(buttonOf('round'));
    await settled();
    tell(lastLine(), said());
  }

  // Typing, a click and another example are undone, one after another, and done again.
  async function undoAll() {
    press('last');
    const examples = one('#examples'), texts = [script.value];
    await type(`${script.value}tick 0 400 0\n`);
    texts.push(script.value);
    await after(1100);
    click(one('.router[data-router="0"]'));
    click(buttonOf('send what is due'));
    await settled();
    texts.push(script.value);
    tell(one('#name').value, examples.value === '' ? 'no example' : examples.value);
    examples.value = 'line.lab';
    examples.dispatchEvent(new Event('change'));
    await settled();
    tell(script.value === texts[0], one('#name').value);
    script.focus();
    for (const wanted of [texts[2], texts[1], texts[0]]) { key('z', { ctrlKey: true }); tell(script.value === wanted); }
    await settled();
    for (const wanted of [texts[1], texts[2]]) { key('y', { ctrlKey: true }); tell(script.value === wanted); }
  }

  // Without a mouse: what Tab reaches, the arrows, Enter and Escape; and where the focus is then.
  async function useKeys() {
    const stopsOf = pane => all('[tabindex="0"]', one(pane)).length, where = () => textOf('#where').split(' ')[1];
    tell('#drawing #tables #events'.split(' ').map(stopsOf), one('[data-act=load]').tabIndex, one('#file').hidden);
    one('#examples').focus();
    const examples = one('#examples').value;
    key('ArrowRight');
    tell(where(), one('#examples').value === examples);
    press('last');
    one('#tables [tabindex="0"]').focus();
    key('ArrowDown');
    tell(document.activeElement.dataset.choose);
    document.activeElement.click();
    tell(document.activeElement.dataset.choose, textOf('#detail h2'));
    key('Escape');
    tell(textOf('#detail h2'), document.activeElement.dataset.choose);
    one('#drawing [tabindex="0"]').focus();
    key('Enter');
    tell(textOf('#detail h2'), document.activeElement.getAttribute('aria-label'));
    buttonOf('send what is due').focus();
    document.activeElement.click();
    await settled();
    tell(document.activeElement.textContent, lastLine());
    click(one('#drawing svg'));
    tell(textOf('#detail h2'));
    const nameless = all('button, input:not([hidden]), select, textarea').filter(element => !(element.getAttribute('aria-label') || element.textContent.trim() || element.labels?.length > 0));
    tell('nameless', nameless.map(element => element.id || element.name).join() || 'none');
  }

  // The gutter stands beside its lines at the end; the last drawing stays, with what was dragged, and nothing is dragged away.
  async function keepDrawing() {
    press('last');
    script.scrollTop = 1e6;
    script.dispatchEvent(new Event('scroll'));
    tell(one('#gutter').scrollTop === script.scrollTop, script.scrollTop > 0);
    const drag = (kind, x, y) => (kind === 'pointerdown' ? one('.router') : window).dispatchEvent(new PointerEvent(kind, { clientX: x, clientY: y, bubbles: true }));
    const at = () => ['cx', 'cy'].map(name => Number(one('.router circle').getAttribute(name)));
    drag('pointerdown', 50, 50);
    drag('pointermove', -5000, -5000);
    drag('pointerup', -5000, -5000);
    await settled();
    const place = at();
    tell(place.every(pixels => pixels > 0));
    const good = script.value;
    await type(good.replace('cold', 'xcold'));
    tell(all('#drawing .router').length, document.body.className, said());
    await type(good);
    tell(at().join() === place.join(), document.body.className, said());
    click(buttonOf('reset layout'));
    tell(at().join() === place.join());
    await type('# nothing\n');
    tell(document.body.className, said());
  }

  // A file of another system has its lines and its name, and can be loaded again; twelve keys are one run.
  async function loadFiles() {
    const files = new DataTransfer(), good = script.value;
    const file = new File([good.replace(/\n/g, '\r\n')], 'mine.lab');
    files.items.add(file);
    one('#file').files = files.files;
    one('#file').dispatchEvent(new Event('change'));
    for (let times = 0; times < 3; times++) await file.text();
    await settled();
    tell(script.value === good, one('#name').value, one('#file').value === '', textOf('#where'), said());
    const before = ran.length;
    for (let count = 0; count < 12; count++) set('#script', `${good}${'#'.repeat(count)}`);
    await settled();
    tell(ran.length - before, said());
  }

  // Rounds by a click, a lost datagram, a branch, a moment that stays as it was typed, and a datagram before it is sent.
  async function useActs() {
    press('last');
    click(buttonOf('round'));
    await settled();
    tell(lastLine(), textOf('#where'));
    key('z', { ctrlKey: true });
    await settled();
    click(all('#events button').find(button => button.textContent.includes('receives datagram 10 ')));
    click(one('#detail [data-act=lose]'));
    await settled();
    tell(script.value.split('\n').find(line => line.startsWith('lose')), all('#drawing .pile.lost').length > 0);
    key('z', { ctrlKey: true });
    await settled();
    set('#place', 'branch');
    one('#place').dispatchEvent(new Event('change'));
    click(all('#events button').find(button => button.textContent.includes('receives datagram 4 ')));
    click(one('.router[data-router="1"]'));
    click(buttonOf('send what is due'));
    await settled();
    tell(script.value.split('\n#branch')[0].split('\n').at(-1), textOf('#events li:last-child'));
    set('#detail [name=now]', '123');
    press('back');
    tell(one('#detail [name=now]').value);
    press('last');
    click(one('.pile.fresh'));
    press('first');
    tell(textOf('#detail').includes('That is later than this step.'));
    tell(await unpacked(await packed(script.value)) === script.value);
    const alone = new DOMParser().parseFromString(drawingAlone(), 'image/svg+xml');
    tell(alone.querySelectorAll('.router').length, alone.querySelector('.wire').getAttribute('stroke').startsWith('rgb'));
  }

  // What a class does, of tests/page/page_class.js, comes here.

  const script = document.getElementById('script');
  const plays = { film: playFilm, asked: showAsked, where: showWhere, refusals: showRefusals, edit, callOffRuns, sayFaults, keepDrafts, refuseClicks, undoAll,
    useKeys, keepDrawing, loadFiles, useActs, seeRounds, seeUpdates, loseAll, forge, cutLinks, takeLessons, fillBlanks, nameRouters, playQuiz, seeEmbedded, askAround, seeMatrix,
    removeThings, followPackets, seeCrowds, useLetters };
  const write = () => { document.body.innerHTML = '<pre id="report"></pre>'; document.getElementById('report').textContent = `${report.join('\n')}\n`; };
  window.onerror = message => { report.push(`wrong ${message}`); };
  window.onunhandledrejection = ({ reason }) => { report.push(`wrong ${reason}`); };
  settled().then(() => plays[location.search.slice(1)]()).catch(error => { report.push(`wrong ${error.stack}`); }).then(write);
}
