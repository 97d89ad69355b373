"""Compares a browser's decoding of bytes and pairs of bytes with the page's tables, which follow the Encoding Standard in any engine."""

import json
import subprocess
from collections.abc import Callable
from typing import Any

import common

# No browser has a decoder for these.
OF_TABLES = ('CP437', 'CP850', 'CP852')

READ = '''const [label, codes] = arguments;
const decoder = new TextDecoder(label);
return codes.map(code => decoder.decode(Uint8Array.from(code < 256 ? [code] : [code >> 8, code & 255])));'''
TABLES = f"""import {{ encodingOf }} from '{common.TOP}/out/web/core/encodings/encodings.js';
const spelled = name => [...encodingOf(name).table.spellings].flatMap(([text, all]) => all.map(bytes => ({{ bytes, text }})));
const others = name => spelled(name).filter(({{ bytes }}) => bytes[0] >= 0x80);
const codeOf = bytes => bytes.reduce((code, byte) => code << 8 | byte);
const all = NAMES.map(name => others(name).map(({{ bytes, text }}) => [codeOf(bytes), text]));
console.log(JSON.stringify(all));"""


def tables() -> dict[str, dict[int, str]]:
    """The characters beyond ASCII in the encodings of other languages, by the standard's labels, as node decodes them."""
    known = {it['name']: it['label'] for it in common.encodings() if 'label' in it and it['name'] not in OF_TABLES}
    program = TABLES.replace('NAMES', json.dumps(list(known)))
    given = subprocess.run(['node', '--input-type=module', '-e', program], stdout=subprocess.PIPE, check=True)
    return {label: dict(pairs) for label, pairs in zip(known.values(), json.loads(given.stdout))}


def differing(run: Callable[..., Any]) -> list[str]:
    """The codes that a browser decodes differently, each as 'label code'. `run` runs a script in the browser."""
    found = []
    for label, pairs in tables().items():
        read = run(READ, label, list(pairs))
        found += [f'{label} {code:X}' for code, text in zip(pairs, read) if pairs[code] != text]
    return found
