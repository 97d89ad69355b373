"""Drives WebKit (Safari's engine) through WebKitGTK's driver. It needs an X server, and saves downloads in the home directory."""

import importlib.util
import os
import unittest.mock
from collections.abc import Sequence
from pathlib import Path
from typing import Any

from common import PATIENCE, Test, await_start, folder, needs, waited

BROWSERS = sorted(Path('/usr/lib').glob('*/webkit2gtk-4.1/MiniBrowser'))


def needs_webkit(test: Test) -> Test:
    """Skips a test where WebKit cannot be driven."""
    driven = unittest.skipUnless(importlib.util.find_spec('selenium'), "wants Debian's package python3-selenium")
    return needs('WebKitWebDriver', 'webkit2gtk-driver')(needs('Xvfb', 'xvfb')(driven(test)))


class WebKit:
    """One browser window. `downloads` is the directory where it saves files."""

    def __init__(self) -> None:
        from selenium import webdriver
        self.downloads = folder('home')
        options = webdriver.WebKitGTKOptions()
        options.binary_location = str(BROWSERS[0])
        options.add_argument('--automation')
        with unittest.mock.patch.dict(os.environ, HOME=str(self.downloads), LIBGL_ALWAYS_SOFTWARE='1'):
            self.driver = webdriver.WebKitGTK(options=options, executable_path='/usr/bin/WebKitWebDriver')

    def quit(self) -> None:
        self.driver.quit()

    def open(self, page: Path | str) -> None:
        self.driver.get(page if isinstance(page, str) else page.as_uri())

    def run(self, script: str, *given: Any) -> Any:
        return self.driver.execute_script(script, *given)

    def wait(self, css: str, text: str = '', seconds: float = PATIENCE) -> None:
        script = '''return [...document.querySelectorAll(arguments[0])].some(it =>
            it.offsetParent !== null && it.innerText.includes(arguments[1]))'''
        waited(lambda: bool(self.run(script, css, text)), f'{css} with "{text}"', seconds)

    def click(self, css: str) -> None:
        self.wait(css)
        self.driver.find_element('css selector', css).click()

    def give(self, css: str, files: Sequence[Path]) -> None:
        """Chooses files at once."""
        await_start(self.run)
        self.driver.find_element('css selector', css).send_keys('\n'.join(map(str, files)))

    def downloaded(self, name: str, seconds: float = PATIENCE) -> Path:
        """Waits until a download's size no longer changes and returns its path."""
        found: list[Path] = waited(lambda: [it for it in self.downloads.rglob(name) if it.is_file()], f'no download {name}', seconds)
        sizes = [-1]

        def settled() -> bool:
            sizes.append(found[0].stat().st_size)
            return sizes[-1] == sizes[-2] > 0

        waited(settled, f'{name} grows', seconds)
        return found[0]
