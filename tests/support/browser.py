"""A real browser for tests: one chromium, spoken to over pipes (the DevTools protocol), so that a page is measured, keyed, printed and photographed at any width without
a start for each. Needs Debian's package chromium."""
import base64
import fcntl
import json
import os
import select
import shutil
import subprocess
import tempfile
import time
from typing import Any, Dict, List, Optional

PATIENCE = 600  # seconds: a machine that is busy otherwise is slow, and that is no fault of the page


class Browser:
    def __init__(self) -> None:
        self.profile = tempfile.mkdtemp(prefix='browser.')
        (read, self.into), (self.out, write) = os.pipe(), os.pipe()
        ends = [fcntl.fcntl(fd, fcntl.F_DUPFD, 20) for fd in (read, write)]

        def place() -> None:
            os.dup2(ends[0], 3)
            os.dup2(ends[1], 4)
        self.process = subprocess.Popen(['chromium', '--headless=new', '--no-sandbox', '--disable-gpu', '--hide-scrollbars', '--no-first-run', '--disable-extensions',
                                         '--disable-background-networking', '--user-data-dir=' + self.profile, '--remote-debugging-pipe', 'about:blank'],
                                        stdin=subprocess.DEVNULL, stdout=subprocess.DEVNULL, stderr=subprocess.DEVNULL, preexec_fn=place, pass_fds=(3, 4))
        for fd in (read, write, *ends):
            os.close(fd)
        self.number, self.piece = 0, b''
        self.events: List[Dict[str, Any]] = []
        targets = self.call('Target.getTargets', session=None)['targetInfos']
        page = next(t for t in targets if t['type'] == 'page')
        self.session = self.call('Target.attachToTarget', session=None, targetId=page['targetId'], flatten=True)['sessionId']
        for domain in ('Page', 'Runtime', 'Log'):
            self.call(domain + '.enable')

    def call(self, method: str, session: Optional[str] = '', **params: Any) -> Dict[str, Any]:
        """what the browser answers"""
        self.number += 1
        message: Dict[str, Any] = dict(id=self.number, method=method, params=params)
        if session is not None:
            message['sessionId'] = self.session
        octets = json.dumps(message).encode() + b'\0'
        while octets:
            octets = octets[os.write(self.into, octets):]
        while True:
            found = self.message()
            if found.get('id') == self.number:
                if 'error' in found:
                    raise RuntimeError('%s: %s' % (method, found['error']))
                return found['result']
            self.events.append(found)

    def message(self) -> Dict[str, Any]:
        until = time.monotonic() + PATIENCE
        while b'\0' not in self.piece:
            if not select.select([self.out], [], [], max(0, until - time.monotonic()))[0]:
                raise RuntimeError('the browser says nothing any more')
            octets = os.read(self.out, 2**20)
            if not octets:
                raise RuntimeError('the browser has ended')
            self.piece += octets
        one, self.piece = self.piece.split(b'\0', 1)
        return json.loads(one)

    def run(self, script: str) -> Any:
        """the value of an expression on the page"""
        found = self.call('Runtime.evaluate', expression=script, returnByValue=True, awaitPromise=True)
        if 'exceptionDetails' in found:
            raise RuntimeError('%s: %s' % (script[:80], found['exceptionDetails'].get('exception', {}).get('description', found['exceptionDetails'])))
        return found['result'].get('value')

    def size(self, width: int, height: int = 900) -> None:
        self.call('Emulation.setDeviceMetricsOverride', width=width, height=height, deviceScaleFactor=1, mobile=False)

    def dark(self, dark: bool) -> None:
        self.call('Emulation.setEmulatedMedia', media='', features=[dict(name='prefers-color-scheme', value='dark' if dark else 'light')])

    def scripts(self, on: bool) -> None:
        self.call('Emulation.setScriptExecutionDisabled', value=not on)

    def open(self, path: str, ready: str = 'document.documentElement.dataset.ready') -> float:
        """opens a page; gives back the seconds until its script has done what it does at first"""
        begun = time.monotonic()
        self.call('Page.navigate', url='about:blank')
        self.call('Page.navigate', url='file://' + path)
        self.until(ready + ' && location.protocol === "file:"')
        return time.monotonic() - begun

    def until(self, script: str, patience: float = PATIENCE) -> bool:
        end = time.monotonic() + patience
        while time.monotonic() < end:
            try:
                if self.run('!!(%s)' % script):
                    return True
            except RuntimeError as fault:
                if 'browser' in str(fault):
                    raise
            time.sleep(0.05)
        return False

    def key(self, name: str) -> None:
        codes = dict(Tab=9, Enter=13, ArrowLeft=37, ArrowUp=38, ArrowRight=39, ArrowDown=40, Home=36, End=35)
        more = dict(text='\r') if name == 'Enter' else {}
        self.call('Input.dispatchKeyEvent', type='keyDown', key=name, code=name, windowsVirtualKeyCode=codes[name], **more)
        self.call('Input.dispatchKeyEvent', type='keyUp', key=name, code=name, windowsVirtualKeyCode=codes[name])

    def write(self, text: str) -> None:
        self.call('Input.insertText', text=text)

    def click(self, selector: str) -> None:
        x, y = self.run('(function(){var e=document.querySelector(%s);e.scrollIntoView({block:"center"});var r=e.getBoundingClientRect();return [r.left+r.width/2,r.top+r.height/2]})()'
                        % json.dumps(selector))
        for kind in ('mousePressed', 'mouseReleased'):
            self.call('Input.dispatchMouseEvent', type=kind, x=x, y=y, button='left', clickCount=1)

    def point(self, x: float, y: float) -> None:
        self.call('Input.dispatchMouseEvent', type='mouseMoved', x=x, y=y)

    def shot(self, path: str) -> None:
        with open(path, 'wb') as f:
            f.write(base64.b64decode(self.call('Page.captureScreenshot', format='png')['data']))

    def printed(self, path: str) -> None:
        with open(path, 'wb') as f:
            f.write(base64.b64decode(self.call('Page.printToPDF', printBackground=True)['data']))

    def faults(self) -> List[Dict[str, Any]]:
        """what the page's script did wrong so far"""
        return [e['params'] for e in self.events if e.get('method') == 'Runtime.exceptionThrown']

    def close(self) -> None:
        try:
            self.call('Browser.close', session=None)
            self.process.wait(30)
        except (RuntimeError, OSError, subprocess.TimeoutExpired):
            self.process.kill()
        self.process.wait()
        shutil.rmtree(self.profile, ignore_errors=True)
