"""A headless Chromium that is driven by messages through a pair of pipes, and what every trial of a page in it has."""
from __future__ import annotations

import base64
import json
import os
import select
import subprocess
import sys
import time
from pathlib import Path
from typing import Any

# The longest that is waited for one answer, in seconds.
PATIENCE = 60


class Browser:
    """A headless browser with one page, which is driven by messages through two pipes."""

    def __init__(self, program, folder):
        ours_to_it, self.sink = os.pipe()
        self.source, its_to_us = os.pipe()
        words = [program, '--headless', '--remote-debugging-pipe', f'--user-data-dir={folder}', '--disable-gpu', '--no-first-run',
                 '--disable-background-networking', '--disable-component-update', '--disable-sync', '--hide-scrollbars', 'about:blank']
        if os.geteuid() == 0:
            words.insert(1, '--no-sandbox')

        def take_pipes():
            read, write = os.dup(ours_to_it), os.dup(its_to_us)
            os.dup2(read, 3)
            os.dup2(write, 4)

        self.process = subprocess.Popen(words, preexec_fn=take_pipes, close_fds=False, stdin=subprocess.DEVNULL,
                                        stdout=subprocess.DEVNULL, stderr=subprocess.DEVNULL)
        os.close(ours_to_it)
        os.close(its_to_us)
        self.kept, self.events, self.count, self.session = b'', [], 0, None
        target = self.ask('Target.createTarget', url='about:blank')['targetId']
        self.session = self.ask('Target.attachToTarget', targetId=target, flatten=True)['sessionId']
        for part in 'Page', 'Runtime', 'Log', 'Network', 'Accessibility':
            self.ask(part + '.enable')

    def ask(self, method, **words):
        """Asks the browser for something, and answers what it gave. Raises RuntimeError where it refuses or is silent."""
        self.count += 1
        message = {'id': self.count, 'method': method, 'params': words}
        if self.session:
            message['sessionId'] = self.session
        os.write(self.sink, json.dumps(message).encode() + b'\0')
        while True:
            heard = self.hear(method)
            if heard.get('id') == self.count:
                break
            self.events.append(heard)
        if 'error' in heard:
            raise RuntimeError(f"{method}: {heard['error']['message']}")
        return heard['result']

    def hear(self, what):
        """The browser's next message."""
        end = time.monotonic() + PATIENCE
        while b'\0' not in self.kept:
            if not select.select([self.source], [], [], max(0, end - time.monotonic()))[0]:
                raise RuntimeError(f'the browser is silent to {what}')
            read = os.read(self.source, 1 << 20)
            if not read:
                raise RuntimeError(f'the browser ended at {what}')
            self.kept += read
        message, _, self.kept = self.kept.partition(b'\0')
        return json.loads(message)

    def wait_for(self, event):
        """Waits until an event came."""
        while not any(heard.get('method') == event for heard in self.events):
            self.events.append(self.hear(event))

    def value(self, text):
        """The value of an expression in the page."""
        answer = self.ask('Runtime.evaluate', expression=text, returnByValue=True, awaitPromise=True)
        if 'exceptionDetails' in answer:
            raise RuntimeError(f"{text}: {answer['exceptionDetails']['text']}")
        return answer['result'].get('value')

    def press(self, key):
        """Presses and lets go a key."""
        codes = {'Tab': 9, 'Enter': 13, ' ': 32, 'End': 35, 'Home': 36, 'ArrowLeft': 37, 'ArrowUp': 38, 'ArrowRight': 39, 'ArrowDown': 40}
        for kind in 'rawKeyDown', 'keyUp':
            text = {'text': '\r'} if key == 'Enter' and kind == 'rawKeyDown' else {}
            self.ask('Input.dispatchKeyEvent', type='keyDown' if text else kind, key=key, code=key, windowsVirtualKeyCode=codes[key], **text)

    def tap(self, x, y, is_touch):
        """Taps or clicks at a place."""
        if is_touch:
            self.ask('Input.dispatchTouchEvent', type='touchStart', touchPoints=[{'x': x, 'y': y}])
            self.ask('Input.dispatchTouchEvent', type='touchEnd', touchPoints=[])
        else:
            for kind in 'mousePressed', 'mouseReleased':
                self.ask('Input.dispatchMouseEvent', type=kind, x=x, y=y, button='left', clickCount=1)

    def open(self, address, width, height, is_narrow):
        """Opens a page at a width. Answers how long that took, in seconds."""
        self.ask('Emulation.setDeviceMetricsOverride', width=width, height=height, deviceScaleFactor=1, mobile=is_narrow)
        self.ask('Emulation.setTouchEmulationEnabled', enabled=is_narrow)
        self.events = []
        begun = time.monotonic()
        self.ask('Page.navigate', url=address)
        self.wait_for('Page.loadEventFired')
        return time.monotonic() - begun

    def see(self):
        """What is seen, as a PNG."""
        return base64.b64decode(self.ask('Page.captureScreenshot', format='png')['data'])

    def keep(self, path):
        """Keeps what is seen as a picture, light and dark."""
        for scheme in 'light', 'dark':
            self.ask('Emulation.setEmulatedMedia', features=[{'name': 'prefers-color-scheme', 'value': scheme}])
            Path(f'{path}-{scheme}.png').write_bytes(self.see())
        self.ask('Emulation.setEmulatedMedia', features=[])

    def end(self):
        """Ends the browser."""
        self.process.terminate()
        try:
            self.process.wait(10)
        except subprocess.TimeoutExpired:
            self.process.kill()
            self.process.wait()


class Trial:
    """A page at one width, with what was found wrong. LOOKS is what it adds to the page to look at it."""
    LOOKS = 'null'

    def __init__(self, browser: Browser, path: Path, width: int, height: int, is_narrow: bool) -> None:
        self.browser, self.path, self.width, self.is_narrow, self.wrong = browser, path, width, is_narrow, []
        self.taken = browser.open(path.as_uri(), width, height, is_narrow)
        browser.value(self.LOOKS)

    def expect(self, what, found, wanted):
        """Notes what isn't as it is wanted."""
        if found != wanted:
            self.wrong.append(f'{what}: {found}, and not {wanted}')

    def is_own(self, address: str) -> bool:
        """Whether the page may ask for an address."""
        return address.partition('#')[0] == self.path.as_uri()

    def try_silence(self):
        """Nothing was said in the console, and nothing asked of a network."""
        for event in self.browser.events:
            words = event.get('params', {})
            if event['method'] == 'Network.requestWillBeSent':
                address = words['request']['url']
                if not address.startswith('data:') and not self.is_own(address):
                    self.wrong.append(f'it asks for {address}')
            elif event['method'] == 'Runtime.exceptionThrown':
                self.wrong.append(f"an error: {words['exceptionDetails'].get('exception', {}).get('description', words)}")
            elif event['method'] == 'Runtime.consoleAPICalled':
                self.wrong.append(f"the console: {words['args']}")
            elif event['method'] == 'Log.entryAdded':
                self.wrong.append(f"the browser's own words: {words['entry']['text']}")

    def try_page(self, shots: Path | None) -> None:
        """Tries the page. Pictures of it go to the folder, where there is one."""
        raise NotImplementedError

    def run(self, shots: Path | None) -> bool:
        """Tries all of it. Answers whether all holds."""
        self.try_page(shots)
        self.try_silence()
        for what in self.wrong:
            print(f'draw/browser: {self.path.name} at {self.width}: {what}', file=sys.stderr)
        return not self.wrong
