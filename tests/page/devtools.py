"""Controls a Chromium process over two pipes: JSON messages, each followed by a zero byte."""

import fcntl
import json
import os
import select
import subprocess
from collections.abc import Callable, Sequence
from pathlib import Path
from typing import Any

# Seconds within which a message has to arrive.
SILENCE = 150


class Refused(Exception):
    """Chromium refused a command, or a script threw an exception."""


class DevTools:
    """Commands to Chromium, and its events: `heard` is called with each event's name and parameters."""

    def __init__(self, words: Sequence[str | Path], heard: Callable[[str, dict[str, Any]], None]) -> None:
        self.heard = heard
        self.number = 0
        self.session = ''
        self.answers: dict[int, dict[str, Any]] = {}
        self.begun: list[bytes] = []
        orders, self.orders = os.pipe()
        self.replies, replies = os.pipe()

        def wired() -> None:
            """Connects the pipes to descriptors 3 (read) and 4 (written)."""
            for kept, wanted in [(fcntl.fcntl(end, fcntl.F_DUPFD, 10), number) for number, end in ((3, orders), (4, replies))]:
                os.dup2(kept, wanted)

        self.process = subprocess.Popen([*words, '--remote-debugging-pipe'], stdin=subprocess.DEVNULL, stdout=subprocess.DEVNULL,
                                        stderr=subprocess.DEVNULL, close_fds=False, preexec_fn=wired)
        for end in (orders, replies):
            os.close(end)

    def send(self, command: str, **given: Any) -> int:
        """Sends a command and returns its number."""
        self.number += 1
        message = {'id': self.number, 'method': command, 'params': given}
        if self.session:
            message['sessionId'] = self.session
        data = json.dumps(message).encode() + b'\0'
        while data:
            data = data[os.write(self.orders, data):]
        return self.number

    def answer(self, number: int) -> dict[str, Any]:
        """Waits for the result of the command with this number."""
        while number not in self.answers:
            self.receive()
        found = self.answers.pop(number)
        if 'error' in found:
            raise Refused(found['error']['message'])
        given: dict[str, Any] = found['result']
        return given

    def request(self, command: str, **given: Any) -> dict[str, Any]:
        return self.answer(self.send(command, **given))

    def receive(self) -> None:
        """Waits for data and handles each complete message."""
        if not select.select([self.replies], [], [], SILENCE)[0]:
            raise TimeoutError(f'Chromium has said nothing for {SILENCE} s')
        data = os.read(self.replies, 1 << 20)
        if not data:
            raise ConnectionError('Chromium has ended')
        *whole, rest = data.split(b'\0')
        if whole:
            whole[0] = b''.join([*self.begun, whole[0]])
            self.begun = []
        self.begun.append(rest)
        for text in whole:
            message = json.loads(text)
            if 'id' in message:
                self.answers[message['id']] = message
            else:
                self.heard(message['method'], message['params'])

    def end(self) -> None:
        self.session = ''
        try:
            self.send('Browser.close')
            self.process.wait(30)
        except (OSError, subprocess.TimeoutExpired):
            self.process.kill()
            self.process.wait()
