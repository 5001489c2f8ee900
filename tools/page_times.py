#!/usr/bin/env python3
"""How long large networks take in the page, docs/lab.html.

    tools/page_times.py chromium|firefox [FILE]

FILE is another such page. First when the page is painted, with the example that it opens. Then a line for each network, a film of it: its steps, the milliseconds
that the module takes, of three runs the least, and its memory, how long the film takes to come up, and of fifty steps near the end the
least, the median, the most. A step is from the click to the page's new layout. Run nothing else meanwhile.
"""
import os
import sys
import time

ROOT = os.path.join(os.path.dirname(os.path.realpath(__file__)), "..")
sys.path[:0] = [os.path.join(ROOT, folder) for folder in ("tests/support", "page")]
sys.dont_write_bytecode = True
import browser  # noqa: E402
import film  # noqa: E402


def grid(side, owners, ends):
    """Routers in a square of that side, so many of which own a prefix; the lines `ends` come behind the start."""
    links = [(at, at + 1) for at in range(side * side) if at % side < side - 1]
    links += [(at, at + side) for at in range(side * (side - 1))]
    lines = []
    for router in range(side * side):
        own = [number for number, link in enumerate(links) if router in link]
        lines += ['router'] + [f'iface fe80::{router + 1:x}:{at} 1 1280 {link}' for at, link in enumerate(own)]
        lines += [f'own 2001:db8:{router:x}::/48 0'] if router < owners else []
    return [*lines, 'cold 0', *ends]


NETWORKS = {
    '64 routers, 1 prefix': grid(8, 1, ['rounds 14 0 15000']),
    '64 routers, 64 prefixes': grid(8, 64, ['rounds 14 0 15000']),
    '256 routers, 1 prefix': grid(16, 1, ['rounds 4 0 15000']),
    '256 routers, 16 prefixes': grid(16, 16, ['rounds 4 0 15000']),
    '324 routers, 1 prefix, no drawing': grid(18, 1, ['rounds 3 0 15000']),
    '4 routers, 10,000 events': grid(2, 1, ['rounds 830 0 15000']),
}
STEP = '''(() => {
  const began = performance.now();
  document.getElementById('back').click();
  document.body.offsetHeight;
  return performance.now() - began;
})()'''


# Runs a script three times in a module of its own, in the page itself: the least time, and the memory.
RUN = '''(async () => {
  const text = document.getElementById('worker').textContent, url = URL.createObjectURL(new Blob([text], { type: 'text/javascript' }));
  const worker = new Worker(url), script = document.querySelector('#own > div').textContent, times = [];
  const answer = words => new Promise(resolve => { worker.onmessage = ({ data }) => resolve(data); worker.postMessage(words); });
  worker.postMessage({ code: document.getElementById('module').textContent });
  let memory = 0;
  for (let run = 0; run < 3; run++) {
    const began = performance.now();
    ({ memory } = await answer({ script: new TextEncoder().encode(script) }));
    times.push(performance.now() - began);
  }
  worker.terminate();
  return [Math.min(...times), memory];
})()'''
# What the laboratory of the page says of a network that is too large for it.
REFUSED = '''/^Line .*at most .*routers/.exec(document.getElementById('editing').textContent)?.[0]'''
PAINTED = 'performance.getEntriesByName("first-contentful-paint")[0]?.startTime'


def come_up(page, path):
    """Opens a file, and says how long it takes until a step is shown."""
    began = time.time()
    page.open(f'file://{path}')
    page.wait('document.getElementById("where").textContent', 120)
    return time.time() - began


def times(page, name, lines, lab):
    path = os.path.join(page.folder, 'network.html')
    with open(lab) as lab, open(path, 'w') as file:
        file.write(film.film(lab.read(), 'network.lab', '\n'.join(lines) + '\n'))
    load = come_up(page, f'{path}#step=1')
    run, memory = page.promised(RUN)
    if page.value(REFUSED):
        print(f'{name}: {page.value(REFUSED)}', flush=True)
        return
    page.value('document.getElementById("last").click()')
    took = sorted(page.value(STEP) for _ in range(50))
    steps = page.value('Number(document.getElementById("slider").max) + 1')
    print(f'{name}: {steps} steps, module {run:.0f} ms and {memory / 2**20:.0f} MiB, up in {load:.1f} s, '
          f'a step {took[0]:.0f}, {took[25]:.0f}, {took[-1]:.0f} ms', flush=True)


def main(kind, lab=os.path.join(ROOT, 'docs/lab.html')):
    page = browser.open_browser(kind)
    try:
        load = come_up(page, os.path.realpath(lab))
        print(f'the page: painted after {page.wait(PAINTED):.0f} ms, up in {load:.1f} s', flush=True)
        for name, lines in NETWORKS.items():
            times(page, name, lines, lab)
    finally:
        page.close()


if __name__ == '__main__':
    if len(sys.argv) not in (2, 3) or sys.argv[1] not in browser.PROGRAMS:
        sys.exit(__doc__)
    main(*sys.argv[1:])
