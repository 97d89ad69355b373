"""The model and the clients that answer worked and random cases, all with the same interface."""

import ctypes
import importlib
import io
import json
import os
import re
import subprocess
import sys
import tempfile
from functools import lru_cache
from multiprocessing.util import Finalize
from pathlib import Path

from forms import COMMANDS, Answer, listed
from image import OPTIONS, OPTIONS_OF_CALLS, answer
from script import ordered, script
from sector import COLUMNS, DIAGONALS, SIZE, address_of, edc_bytes, parity, power, syndromes, times

TESTS = Path(__file__).resolve().parent.parent
sys.path.append(str(TESTS / 'library'))
import by_lines  # noqa: E402
import in_pieces  # noqa: E402

TIME = 300  # seconds, more than any command needs
PATCHING = ('check', 'apply')  # the commands of cdpatch that cdscript has too
# Files are in memory if possible: a command that creates one waits until it is on the disk.
ROOM = '/dev/shm' if os.access('/dev/shm', os.W_OK) else None


class Model:
    """The model in tests/model. It answers every question."""
    name = 'the model'

    def answer(self, call, given):
        if call in COMMANDS:
            image, base, options, text = given
            return Answer(*answer(call, image, base, options, text))
        if call == 'order':
            return ' '.join(str(patch.line) for patch in ordered(script(given[3]))) or '-'
        return value(call, given)


def value(call, given):
    """A value computed by the model, in the notation of the cases."""
    if call == 'changes':
        return ' '.join(f'{place}:{amount:02X}' for place, amount in parity_changes(*given))
    if call == 'times':
        return f'{times(int(given[0], 16), int(given[1], 16)):02X}'
    if call == 'power':
        return f'{power(int(given[0])):02X}'
    if call == 'address':
        made = address_of(int(given[0]))
        return made.hex() if made else 'None'
    made = {'edc': lambda v: edc_bytes(v, 0), 'parity': lambda v: parity(list(v), (0, 0)), 'syndromes': syndromes}
    return bytes(made[call](listed(given[0]))).hex().upper()


def parity_changes(place, amount):
    """The places where the parity changes if the sector of zeros gets this byte at a place from 12 to 2075."""
    made = bytearray(SIZE)
    made[int(place)] = int(amount, 16)
    for word in COLUMNS + DIAGONALS:
        made[word[-2]], made[word[-1]] = parity([made[i] for i in word[:-2]], (0, 0))
    return [(i, made[i]) for i in range(2076, SIZE) if made[i]]


class Commands:
    """Answers what a command can show, by the method `run` of its class."""
    answers = COMMANDS

    def answer(self, call, given):
        if call in COMMANDS:
            return self.run(call, *given) if call in self.answers else None
        if call == 'order':
            # In an empty image each patch finds no block, and has its line in the log.
            printed = self.run('check', *given).text
            return ' '.join(re.findall(r'^line (\d+): ', printed, re.MULTILINE)) or '-'
        return None


class Coat(Commands):
    """A client of the calls. A subclass has `made`, which returns a command's status, text, and new image, or None for the image, and
    methods for the values that it can show."""
    name = ''
    values = ()
    options = OPTIONS_OF_CALLS

    def __init__(self, path):
        self.path = str(Path(path).resolve())

    def answer(self, call, given):
        return getattr(self, call)(*given) if call in self.values else super().answer(call, given)

    def run(self, command, image, base, options, text):
        if set(options) - set(self.options):
            return None
        status, printed, out = self.made(command, image, base, '--carry' in options, text)
        return Answer(status, printed.decode('utf-8', 'replace'), out)

    def said(self, case):
        """The status, the text, and the new image of a random case."""
        return self.made(case.command, case.image, case.base, case.carry, case.script)


class Library(Coat):
    """A shared library: the calls of cdpatch.h on sectors and pieces of images, and those for values."""
    name = 'the library'
    values = ('edc', 'address', 'changes')
    commands = in_pieces

    def made(self, *given):
        return self.commands.run(self.path, *given)

    def edc(self, digits):
        word = in_pieces.opened(self.path).cdpatch_edc(listed(digits), ctypes.c_size_t(len(listed(digits))))
        return (word % 2 ** 32).to_bytes(4, 'little').hex().upper()

    def address(self, block):
        made = ctypes.create_string_buffer(3)
        has_one = in_pieces.opened(self.path).cdpatch_address(ctypes.c_uint32(int(block)), made) & 255
        return made.raw.hex() if has_one else 'None'

    def changes(self, place, amount):
        made = ctypes.create_string_buffer(SIZE)
        made[int(place)] = int(amount, 16)
        in_pieces.opened(self.path).cdpatch_fill_parity(made)
        return parity_of(made.raw)


class ByParts(Coat):
    """A client that builds the commands from calls on lines, patches, and sectors. `check` uses the result of the same `apply`, which is
    kept, so that the second of them costs nothing."""

    @lru_cache(1)
    def applied(self, *given):
        return super().made('apply', *given)

    def made(self, command, *given):
        if command in ('list', 'audit'):
            return super().made(command, *given)
        status, printed, out = self.applied(*given)
        return status, printed, out if command == 'apply' else None


class ByLines(ByParts, Library):
    """A client that builds the commands from a shared library's calls on lines, patches, and sectors."""
    name = 'the library line by line'
    commands = by_lines


class Python(Coat):
    """The package for Python in a directory: in memory, and for `apply` through streams too."""
    name = 'the package for Python'
    values = ('edc', 'address', 'changes')

    @property
    def package(self):
        os.environ.setdefault('CDPATCH_LIBRARY', str(TESTS.parent / 'library/libcdpatch.so.2'))
        if self.path not in sys.path:
            sys.path.append(self.path)
        return importlib.import_module('cdpatch')

    def made(self, command, image, base, carry, text):
        try:
            return self.reported(command, image, base, carry, text)
        except self.package.Failed as fault:
            return 2, f'{fault}\n'.encode(), None

    def reported(self, command, image, base, carry, text):
        package, out = self.package, None
        if command == 'list':
            return 0, package.listing(image, base).encode(), None
        if command == 'audit':
            report = package.audit(image, base)
        elif command == 'check':
            report = package.check(image, text, base, carry)
        else:
            out, *report = package.apply(image, text, base, carry)
            stream = io.BytesIO()
            if [*package.patch(io.BytesIO(image), text, stream, base, carry), stream.getvalue()] != [*report, out]:
                raise ValueError('by streams another image or log came')
        printed, found, *_ = report
        return int(found), printed.encode(), out and bytes(out)

    def edc(self, digits):
        return self.package.edc(listed(digits)).to_bytes(4, 'little').hex().upper()

    def address(self, block):
        made = self.package.address(int(block))
        return made.hex() if made else 'None'

    def changes(self, place, amount):
        made = bytearray(SIZE)
        made[int(place)] = int(amount, 16)
        return parity_of(self.package.with_parity(made))


class Served(Coat):
    """A client in node, served by a process: `server` is the served file, and `path` its argument."""
    server = ''

    @property
    def process(self):
        return served(str(TESTS / self.server), self.path)

    def ask(self, call, *parts, base=0, carry=False):
        """Asks the process, and returns the status and the pieces of bytes. Raises ValueError if the client reports an error."""
        process = self.process
        question = {'call': call, 'base': base, 'carry': carry, 'sizes': [len(part) for part in parts]}
        process.stdin.write(json.dumps(question).encode() + b'\n' + b''.join(parts))
        process.stdin.flush()
        made = json.loads(process.stdout.readline())
        pieces = [process.stdout.read(size) for size in made['sizes']]
        if made['status'] < 0:
            raise ValueError(pieces[0].decode())
        return made['status'], pieces

    def made(self, command, image, base, carry, text):
        status, (printed, *out) = self.ask(command, image, text, base=base, carry=carry)
        return status, printed, out[0] if out else None

    def edc(self, digits):
        return self.ask('edc', listed(digits))[1][0].hex().upper()

    def address(self, block):
        return self.ask('address', base=int(block))[1][0].hex() or 'None'

    def changes(self, place, amount):
        made = bytearray(SIZE)
        made[int(place)] = int(amount, 16)
        return parity_of(self.ask('parity', bytes(made))[1][0])


class Module(ByParts, Served):
    """A WebAssembly module with the calls of cdpatch.h that need no allocation: its calls on lines, patches, and sectors, and runs."""
    name = 'the module'
    server = 'modules/serve.mjs'
    values = ('edc', 'address', 'changes')


class Core(Served):
    """The core of the page and cdscript in a directory, over library/cdpatch.wasm."""
    name = 'the core'
    server = 'core/serve.mjs'
    values = ('edc', 'address', 'changes')


class Command(Served):
    """cdscript, whose `main` is called in one process."""
    name = 'cdscript'
    answers = PATCHING
    server = 'cdscript/serve.mjs'


@lru_cache
def served(server, path):
    """Starts the node process, once for each process of the tests, which waits for it when it ends, so that its CPU time is counted."""
    environment = {**os.environ, **({'TMPDIR': ROOM} if ROOM else {})}
    process = subprocess.Popen(['node', server, path], stdin=subprocess.PIPE, stdout=subprocess.PIPE, env=environment)
    Finalize(process, process.communicate, exitpriority=0)
    return process


def parity_of(sector):
    """The parity bytes of a sector that are not 00, in the notation of the cases."""
    return ' '.join(f'{i}:{sector[i]:02X}' for i in range(2076, SIZE) if sector[i])


class Program(Commands):
    """A program with the arguments of cdpatch."""
    name = 'the program'
    before = ()
    options = OPTIONS

    def __init__(self, path):
        self.path = str(Path(path).resolve())

    def base_words(self, base):
        """The option for the base; none for base 0."""
        return ['--base', str(base)] * (base > 0)

    def run(self, command, image, base, options, text):
        words = [command, 'image'] + ['script'] * (command in ('check', 'apply')) + ['out'] * (command == 'apply')
        status, printed, out = self.ended(words + self.base_words(base) + options, image, text)
        return Answer(status, printed.decode('utf-8', 'replace'), out)

    def said(self, case):
        """The status, the text, and the new image of a random case."""
        return self.ended(case.words, case.image, case.script, case.image if case.piped else b'')

    def ended(self, words, image, script, given=b''):
        """Runs the program in a directory with these files. Returns its status, its text, and the new image."""
        with tempfile.TemporaryDirectory(dir=ROOM) as name:
            directory = Path(name)
            (directory / 'image').write_bytes(image)
            (directory / 'script').write_bytes(script)
            ended = subprocess.run([*self.before, self.path, *words], cwd=directory, input=given, capture_output=True, timeout=TIME,
                                   check=False)
            out = (directory / 'out').read_bytes() if (directory / 'out').exists() else None
        return ended.returncode, ended.stdout + ended.stderr, out


class CommandProcess(Program):
    """cdscript as a process. It always gets the base, since without one it uses the addresses rather than 0."""
    name = 'cdscript as a process'
    answers = PATCHING
    before = ('node',)

    def base_words(self, base):
        return ['--base', str(base)]

    def said(self, case):
        words = case.words or [case.command, '-']
        words = words if '--base' in words else [*words, *self.base_words(case.base)]
        return self.ended(words, case.image, case.script, case.image if case.piped else b'')

    def ended(self, words, image, script, given=b''):
        status, printed, out = super().ended(words, image, script, given)
        # The program does not say this.
        return status, re.sub(rb'^cdscript: no sector of .* is Mode 1, .*\n', b'', printed, flags=re.MULTILINE), out


class ForWindows(Program):
    """cdpatch.exe under wine."""
    name = 'the program for Windows'
    before = ('/usr/lib/wine/wine64',)


class ForArm(Program):
    """The program for aarch64 under qemu."""
    name = 'the program for aarch64'
    before = ('qemu-aarch64', '-L', '/usr/aarch64-linux-gnu')


CLIENTS = {'program': Program, 'windows': ForWindows, 'arm64': ForArm, 'library': Library, 'by-lines': ByLines, 'python': Python,
           'module': Module, 'core': Core, 'cdscript': Command, 'cdscript-process': CommandProcess}


def add_clients(words):
    """Adds the arguments that name clients to a parser."""
    for name, made in CLIENTS.items():
        words.add_argument(f'--{name}', metavar='PATH', help=f'ask {made.name} there')


def clients_of(given):
    """The clients that the arguments name."""
    named = [(made, getattr(given, name.replace('-', '_'))) for name, made in CLIENTS.items()]
    return [made(path) for made, path in named if path]
