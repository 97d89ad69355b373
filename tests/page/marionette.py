"""Drives headless Firefox through Marionette's socket."""

import json
import socket
import subprocess
from collections.abc import Sequence
from pathlib import Path
from typing import Any

from common import PATIENCE, await_start, folder, waited

ELEMENT = 'element-6066-11e4-a52e-4f735466cecf'


def free_port() -> int:
    with socket.socket() as bound:
        bound.bind(('127.0.0.1', 0))
        return int(bound.getsockname()[1])


class Firefox:
    """One browser window. `downloads` is the directory where it saves files."""

    def __init__(self) -> None:
        self.downloads, profile = folder('downloads'), folder('firefox')
        port = free_port()
        prefs = {'marionette.port': port, 'browser.download.folderList': 2, 'browser.download.dir': str(self.downloads),
                 'browser.download.alwaysOpenPanel': False, 'browser.shell.checkDefaultBrowser': False,
                 'datareporting.policy.dataSubmissionEnabled': False, 'app.update.enabled': False,
                 'browser.helperApps.neverAsk.saveToDisk': 'application/octet-stream,text/plain,text/html',
                 'network.captive-portal-service.enabled': False, 'network.connectivity-service.enabled': False}
        (profile / 'user.js').write_text(''.join(f'user_pref({json.dumps(k)}, {json.dumps(v)});\n' for k, v in prefs.items()))
        self.process = subprocess.Popen(['/usr/bin/firefox-esr', '--headless', '--marionette', '--no-remote', '--profile', profile],
                                        stdout=subprocess.DEVNULL, stderr=subprocess.DEVNULL)
        self.socket: socket.socket = waited(lambda: self.connected(port), 'Firefox lets nobody connect')
        self.socket.settimeout(120)
        self.buffer = b''
        self.number = 0
        self.receive()
        self.command('WebDriver:NewSession', capabilities={'alwaysMatch': {'acceptInsecureCerts': True}})

    @staticmethod
    def connected(port: int) -> socket.socket | None:
        try:
            return socket.create_connection(('127.0.0.1', port), 1)
        except OSError:
            return None

    def receive(self) -> Any:
        """Reads the next message: its length in decimal digits, a colon, and JSON."""
        while b':' not in self.buffer:
            self.buffer += self.more()
        size, rest = self.buffer.split(b':', 1)
        while len(rest) < int(size):
            rest += self.more()
        self.buffer = rest[int(size):]
        return json.loads(rest[:int(size)])

    def more(self) -> bytes:
        data = self.socket.recv(1 << 16)
        if not data:
            raise ConnectionError('Firefox has ended')
        return data

    def command(self, name: str, **given: Any) -> Any:
        self.number += 1
        message = json.dumps([0, self.number, name, given]).encode()
        self.socket.sendall(b'%d:%s' % (len(message), message))
        _, _, error, result = self.receive()
        if error:
            raise AssertionError(f"{name}: {error['error']}: {error['message']}")
        return result.get('value', result) if isinstance(result, dict) else result

    def quit(self) -> None:
        try:
            self.command('Marionette:Quit', flags=['eForceQuit'])
        except (ConnectionError, AssertionError, OSError):
            self.process.terminate()
        self.socket.close()
        self.process.wait(30)

    def open(self, page: Path | str) -> None:
        self.command('WebDriver:Navigate', url=page if isinstance(page, str) else page.as_uri())

    def run(self, script: str, *given: Any) -> Any:
        return self.command('WebDriver:ExecuteScript', script=script, args=list(given))

    def element(self, css: str) -> str:
        return str(self.command('WebDriver:FindElement', using='css selector', value=css)[ELEMENT])

    def wait(self, css: str, text: str = '', seconds: float = PATIENCE) -> None:
        script = '''return [...document.querySelectorAll(arguments[0])].some(it =>
            it.checkVisibility() && it.innerText.includes(arguments[1]))'''
        waited(lambda: bool(self.run(script, css, text)), f'{css} with "{text}"', seconds)

    def click(self, css: str) -> None:
        self.wait(css)
        self.command('WebDriver:ElementClick', id=self.element(css))

    def give(self, css: str, files: Sequence[Path]) -> None:
        """Chooses files at once."""
        await_start(self.run)
        self.command('WebDriver:ElementSendKeys', id=self.element(css), text='\n'.join(map(str, files)))

    def memory(self) -> int:
        """Memory in bytes of Firefox's first process, which saves files."""
        [size] = [row.split()[1] for row in Path(f'/proc/{self.process.pid}/status').read_text().splitlines() if row.startswith('VmRSS:')]
        return int(size) * 1024

    def downloaded(self, name: str, seconds: float = PATIENCE) -> Path:
        """Waits until a download is complete and returns its path. Until then the file is empty and its bytes go to NAME.part."""
        path = self.downloads / name
        waited(lambda: path.exists() and not any(self.downloads.glob('*.part')) and path.stat().st_size > 0, f'no download {name}', seconds)
        return path
