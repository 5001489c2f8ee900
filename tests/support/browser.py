"""A real browser with real clicks and keys: Chromium by the pipe of its DevTools, or Firefox by the socket of Marionette. Nothing is
needed but the browser and the standard library.
"""
import base64
import json
import os
import shutil
import socket
import subprocess
import sys
import tempfile
import time

PROGRAMS = {'chromium': ('chromium', 'chromium-browser', 'google-chrome'), 'firefox': ('firefox-esr', 'firefox')}
# Names of keys: as the page hears them, the code that Chromium wants, and the letter of Marionette.
KEYS = {'Tab': (9, '\ue004'), 'Enter': (13, '\ue007'), 'Escape': (27, '\ue00c'), ' ': (32, ' '), 'End': (35, '\ue010'), 'Home': (36, '\ue011'),
        'ArrowLeft': (37, '\ue012'), 'ArrowUp': (38, '\ue013'), 'ArrowRight': (39, '\ue014'), 'ArrowDown': (40, '\ue015')}
# The seconds that a page may take to come; and how many times as long as it says a test waits, on a machine that does much else.
OPENING, PATIENCE = 60, float(os.environ.get('PATIENCE', 1))
MODIFIERS = {'Control': (2, '\ue009'), 'Shift': (8, '\ue008')}


def program_of(kind):
    return next(filter(None, map(shutil.which, PROGRAMS[kind])), None)


def open_browser(kind, width=1400, height=900):
    return {'chromium': Chromium, 'firefox': Firefox}[kind](width, height)


class Browser:
    """What both have; each has `call`, `open`, `value`, `promised`, `click_at`, `drag`, `press`, `picture` and `size`, and Chromium `media`."""

    def __init__(self):
        self.folder = tempfile.mkdtemp(prefix='browser-')
        self.downloads = os.path.join(self.folder, 'downloads')
        os.mkdir(self.downloads)
        self.number = 0

    def wait(self, expression, seconds=30):
        """The value of an expression of JavaScript, once it is true."""
        end = time.time() + PATIENCE * seconds
        while time.time() < end:
            value = self.value(expression)
            if value:
                return value
            time.sleep(0.05)
        raise TimeoutError(f'this did not come to be: {expression}')

    def traced(self, scripts):
        """The traces that the laboratory makes of scripts, one after another."""
        return self.promised(f'''(async () => {{
          const page = window.wrappedJSObject ?? window, traces = [];
          for (const script of {json.dumps(scripts)}) traces.push(await page.traced(script));
          return traces;
        }})()''')

    def downloaded(self, name, seconds=30):
        """The path of a file that the page gives to save, once it is whole."""
        path, size, end = os.path.join(self.downloads, name), -1, time.time() + PATIENCE * seconds
        while time.time() < end:
            now = os.path.getsize(path) if os.path.exists(path) else -1
            if now > 0 and now == size and self.is_whole(path):
                return path
            size = now
            time.sleep(0.2)
        raise TimeoutError(f'{name} was not saved, but {os.listdir(self.downloads)}')

    @staticmethod
    def is_whole(path):
        """Whether a page that is saved has its end."""
        with open(path, 'rb') as file:
            return not path.endswith('.html') or file.read().rstrip().endswith(b'</html>')

    def close(self):
        self.process.terminate()
        self.process.wait()
        shutil.rmtree(self.folder, ignore_errors=True)


class Chromium(Browser):
    def __init__(self, width, height):
        super().__init__()
        theirs_in, self.out = os.pipe()
        answers, theirs_out = os.pipe()
        words = [program_of('chromium'), '--headless', '--no-sandbox', '--disable-gpu', '--no-first-run', f'--window-size={width},{height}',
                 '--remote-debugging-pipe', f'--user-data-dir={self.folder}/profile', 'about:blank']
        # The pipe's ends are numbers 3 and 4 in Chromium.
        self.process = subprocess.Popen(['bash', '-c', f'exec "$@" 3<&{theirs_in} 4>&{theirs_out}', 'bash', *words],
                                        pass_fds=(theirs_in, theirs_out), stdout=subprocess.DEVNULL, stderr=subprocess.DEVNULL)
        os.close(theirs_in)
        os.close(theirs_out)
        self.answers, self.begun = os.fdopen(answers, 'rb', 1 << 20), bytearray()
        self.session = None
        target = next(one for one in self.call('Target.getTargets')['targetInfos'] if one['type'] == 'page')
        self.session = self.call('Target.attachToTarget', targetId=target['targetId'], flatten=True)['sessionId']
        self.call('Page.enable')
        self.call('Browser.setDownloadBehavior', behavior='allow', downloadPath=self.downloads)
        self.size(width, height)

    def read(self):
        while b'\0' not in self.begun:
            self.begun += self.answers.read1() or sys.exit('Chromium has ended')
        text, _, behind = self.begun.partition(b'\0')
        self.begun = bytearray(behind)
        return json.loads(bytes(text))

    def call(self, method, **parameters):
        self.number += 1
        message = {'id': self.number, 'method': method, 'params': parameters}
        if self.session and not method.startswith(('Target.', 'Browser.')):
            message['sessionId'] = self.session
        os.write(self.out, json.dumps(message).encode() + b'\0')
        while True:
            answer = self.read()
            if answer.get('id') == self.number:
                if 'error' in answer:
                    raise RuntimeError(f"{method}: {answer['error']}")
                return answer['result']

    def open(self, url):
        # Until the page before is gone: else it could still answer, and keep a draft when it goes.
        self.call('Page.navigate', url='about:blank')
        self.wait('location.href === "about:blank"', OPENING)
        self.call('Page.navigate', url=url)
        self.wait('location.href !== "about:blank" && document.readyState === "complete"', OPENING)

    def value(self, expression):
        answer = self.call('Runtime.evaluate', expression=expression, returnByValue=True, awaitPromise=True)
        if 'exceptionDetails' in answer:
            raise RuntimeError(f'{expression}: {answer["exceptionDetails"]}')
        return answer['result'].get('value')

    def promised(self, expression):
        return self.value(expression)

    def click_at(self, x, y):
        for kind in ('mouseMoved', 'mousePressed', 'mouseReleased'):
            self.call('Input.dispatchMouseEvent', type=kind, x=x, y=y, button='none' if kind == 'mouseMoved' else 'left', clickCount=1)

    def drag(self, start, end):
        """With the left button down, from a point to another."""
        moves = [('mouseMoved', start, 'none'), ('mousePressed', start, 'left'), ('mouseMoved', end, 'left'), ('mouseReleased', end, 'left')]
        for kind, (x, y), button in moves:
            self.call('Input.dispatchMouseEvent', type=kind, x=x, y=y, button=button, buttons=int(button == 'left'), clickCount=1)

    def press(self, key, modifier=None):
        code, flags = KEYS.get(key, (ord(key[0].upper()), None))[0], MODIFIERS[modifier][0] if modifier else 0
        text = {'Enter': '\r'}.get(key, key if len(key) == 1 and not modifier else '')
        for kind in ('keyDown', 'keyUp'):
            self.call('Input.dispatchKeyEvent', type=kind, key=key, windowsVirtualKeyCode=code, modifiers=flags,
                      text=text if kind == 'keyDown' else '')

    def size(self, width, height):
        self.call('Emulation.setDeviceMetricsOverride', width=width, height=height, deviceScaleFactor=1, mobile=False)

    def media(self, kind='screen', **features):
        """How the page is shown: `media('print')`, `media(prefers_color_scheme='dark')`."""
        asked = [{'name': name.replace('_', '-'), 'value': value} for name, value in features.items()]
        self.call('Emulation.setEmulatedMedia', media=kind, features=asked)

    def picture(self, path):
        with open(path, 'wb') as file:
            file.write(base64.b64decode(self.call('Page.captureScreenshot')['data']))


class Firefox(Browser):
    def __init__(self, width, height):
        super().__init__()
        profile = os.path.join(self.folder, 'profile')
        os.mkdir(profile)
        wanted = {'marionette.port': 0, 'browser.download.folderList': 2, 'browser.download.dir': self.downloads,
                  'browser.download.alwaysOpenPanel': False, 'datareporting.policy.dataSubmissionEnabled': False,
                  'browser.shell.checkDefaultBrowser': False, 'dom.disable_beforeunload': True, 'app.update.enabled': False}
        with open(os.path.join(profile, 'user.js'), 'w') as file:
            file.writelines(f'user_pref({json.dumps(name)}, {json.dumps(value)});\n' for name, value in wanted.items())
        self.process = subprocess.Popen([program_of('firefox'), '--headless', '--marionette', '--no-remote', '--profile', profile,
                                         '--width', str(width), '--height', str(height)],
                                        stdout=subprocess.DEVNULL, stderr=subprocess.DEVNULL)
        self.socket = self.connect(os.path.join(profile, 'MarionetteActivePort'))
        self.read()
        self.call('WebDriver:NewSession', capabilities={'alwaysMatch': {'unhandledPromptBehavior': 'accept'}})
        self.call('WebDriver:SetTimeouts', script=int(300_000 * PATIENCE), pageLoad=int(300_000 * PATIENCE))
        self.size(width, height)

    def connect(self, port_file, seconds=120):
        end = time.time() + PATIENCE * seconds
        while time.time() < end:
            try:
                with open(port_file) as file:
                    return socket.create_connection(('127.0.0.1', int(file.read())))
            except (OSError, ValueError):
                time.sleep(0.1)
        raise TimeoutError('Firefox opens no port')

    def read(self):
        length = b''
        while not length.endswith(b':'):
            length += self.socket.recv(1) or sys.exit('Firefox has ended')
        text = bytearray()
        while len(text) < int(length[:-1]):
            text += self.socket.recv(int(length[:-1]) - len(text)) or sys.exit('Firefox has ended')
        return json.loads(bytes(text))

    def call(self, method, **parameters):
        self.number += 1
        message = json.dumps([0, self.number, method, parameters]).encode()
        self.socket.sendall(b'%d:%s' % (len(message), message))
        _, _, error, result = self.read()
        if error:
            raise RuntimeError(f"{method}: {error['message']}")
        return result

    def open(self, url):
        self.call('WebDriver:Navigate', url='about:blank')
        self.call('WebDriver:Navigate', url=url)

    def value(self, expression):
        return self.call('WebDriver:ExecuteScript', script=f'return ({expression})', args=[])['value']

    def promised(self, expression):
        script = f'const end = arguments[arguments.length - 1]; ({expression}).then(end)'
        return self.call('WebDriver:ExecuteAsyncScript', script=script, args=[])['value']

    def click_at(self, x, y):
        moves = [{'type': 'pointerMove', 'x': int(x), 'y': int(y)}, {'type': 'pointerDown', 'button': 0}, {'type': 'pointerUp', 'button': 0}]
        self.act('pointer', moves)

    def drag(self, start, end):
        to = [{'type': 'pointerMove', 'x': int(x), 'y': int(y)} for x, y in (start, end)]
        self.act('pointer', [to[0], {'type': 'pointerDown', 'button': 0}, to[1], {'type': 'pointerUp', 'button': 0}])

    def press(self, key, modifier=None):
        letters = [MODIFIERS[modifier][1]] if modifier else []
        letters.append(KEYS[key][1] if key in KEYS else key)
        downs = [{'type': 'keyDown', 'value': letter} for letter in letters]
        self.act('key', [*downs, *({'type': 'keyUp', 'value': letter} for letter in reversed(letters))])

    def act(self, kind, actions):
        self.call('WebDriver:PerformActions', actions=[{'type': kind, 'id': kind, 'actions': actions}])

    def size(self, width, height):
        self.call('WebDriver:SetWindowRect', width=width, height=height)
        inner = self.value('[innerWidth, innerHeight]')
        self.call('WebDriver:SetWindowRect', width=2 * width - inner[0], height=2 * height - inner[1])

    def picture(self, path):
        with open(path, 'wb') as file:
            file.write(base64.b64decode(self.call('WebDriver:TakeScreenshot', full=False)['value']))
