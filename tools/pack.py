"""Packs an interface into one file by esbuild: `pack.py command MODULE OUT` builds cdscript from web/command, and `pack.py page MODULE OUT`
builds cdpatch.html from web/page. The licence notices are the file NOTICES in the directory of MODULE, or the file that `--notices` names.
It reads out/web, which it updates by strip.py, or what `--web DIRECTORY` names in its place, which is in JavaScript. joined_command.js and joined_page.js define the object JOINED of the packed modules. The page has its
script gzipped, and page_loader.js, which starts it. The bytes depend only on these files and on the versions of esbuild and zlib, which
`pack.py --versions` prints.

`page.html` has these lines, each once; the policy comes after the first of them, and the last two are its end:
    <meta charset="utf-8">
    <link rel="icon" href="icon.svg">
    <link rel="stylesheet" href="style.css">
    <script type="module" src="main.js"></script>
    <plaintext hidden id="data">
A key in braces is replaced by its text in `page/texts/english.js`.
"""

import argparse
import ast
import base64
import hashlib
import html
import json
import re
import sys
import tempfile
import zlib
from pathlib import Path

from strip import esbuild, stripped

TOOLS = Path(__file__).resolve().parent
LARGEST_PAGE = 456_000
NEEDS = 'cdscript needs node 18 or later'
# The paths of modules can occur in the output, so esbuild finds all of them under fixed names. It would also use web/tsconfig.json.
EVERY = ['--bundle', '--charset=utf8', '--legal-comments=none', '--log-level=warning', '--log-limit=0', '--loader:.gz=base64',
         '--tsconfig=none.json', '--preserve-symlinks', '--minify-whitespace']
COMMAND = ['--platform=node', '--target=node18', '--format=cjs', '--inject:tools/joined_command.js',
           '--footer:js=if (require.main === module) module.exports.start();']
# esbuild does not know that modules are strict.
PAGE = ['--target=es2022', '--format=iife', '--minify-identifiers', '--minify-syntax', "--banner:js='use strict';"]
# A shell runs the lines up to `exec`, which are a comment for node. Node would treat a closed stream as an empty one.
SHELL = f"""\
#!/bin/sh
':' /*
(: 3>&1) 2> /dev/null || {{ echo 'cdscript: standard output is closed' >&2; exit 2; }}
(: 3<&0) 2> /dev/null || exec < /
command -v node > /dev/null || {{ echo '{NEEDS}' >&2; exit 2; }}
exec node "$0" "$@"
*/;
'use strict';
if (Number(process.versions.node.split('.')[0]) < 18) {{
    process.stderr.write('{NEEDS}, and this is ' + process.versions.node + '\\n');
    process.exit(2);
}}
"""
CHARSET = '<meta charset="utf-8">'
ICON = '<link rel="icon" href="icon.svg">'
STYLE = '<link rel="stylesheet" href="style.css">'
DATA = '<plaintext hidden id="data">\n'
END = f'<script type="module" src="main.js"></script>\n{DATA}'
# The text of a key in english.js, which may continue in indented lines.
TEXT = r'''^export const {} = (['"].*(?:\n +.*)*);$'''
POLICY_TAG = '<meta http-equiv="Content-Security-Policy" content="'
# The policy has the hashes of two scripts: the loader, which is in the page, and the script that it inflates and starts.
POLICY = ("default-src 'none'; script-src '{scripts}' 'wasm-unsafe-eval'; style-src '{style}'; worker-src blob:; img-src data: blob:; "
          "connect-src 'none'; form-action 'none'; base-uri 'none'; require-trusted-types-for 'script'; "
          "trusted-types cdpatch cdpatch-script")


def versions() -> list[str]:
    return [f'esbuild {esbuild("--version", at=TOOLS).strip()}', f'zlib {zlib.ZLIB_RUNTIME_VERSION}']


def read(path: Path) -> bytes:
    try:
        return path.read_bytes()
    except OSError as error:
        sys.exit(f'pack.py: {path}: {error.strerror}')


def packed(content: bytes) -> bytes:
    """The content gzipped. Blocks that end sooner than by default suit base64 beside text: the page is 1 KB smaller."""
    packing = zlib.compressobj(9, zlib.DEFLATED, 16 + zlib.MAX_WBITS, memLevel=7)
    return packing.compress(content) + packing.flush()


def command(parts: Path) -> str:
    return SHELL + esbuild('web/command/main.js', *EVERY, *COMMAND, at=parts)


def cut(text: str, line: str) -> list[str]:
    if text.count(line) != 1:
        sys.exit(f'pack.py: page.html: {line.strip()} stands there {text.count(line)} times, and not once')
    return text.split(line)


def with_texts(web: Path) -> str:
    """page.html with its texts inserted. Python joins adjacent strings, so a `+` at the end of a line is dropped."""
    english = read(web / 'page' / 'texts' / 'english.js').decode()

    def text_of(found: re.Match[str]) -> str:
        text = re.search(TEXT.format(found[1]), english, re.MULTILINE)
        if text is None:
            sys.exit(f'pack.py: page.html: english.js has no text {found[1]}')
        return html.escape(str(ast.literal_eval('(' + text[1].replace(' +\n', '\n') + ')')))

    return re.sub(r'\{(\w+)\}', text_of, read(web / 'page' / 'page.html').decode())


def page_pieces(web: Path) -> list[str]:
    """The parts of the page before the policy, between policy and style, between style and script, and after the script."""
    icon = base64.b64encode(read(web / 'page' / 'icon.svg')).decode()
    text = f'<link rel="icon" href="data:image/svg+xml;base64,{icon}">'.join(cut(with_texts(web), ICON))
    before, rest = cut(text, CHARSET)
    to_style, rest = cut(rest, STYLE)
    to_script, after = cut(rest, END)
    if after or '<script' in to_style + to_script or '\r' in text:
        sys.exit('pack.py: page.html: it has another end or another script, or a carriage return')
    return [f'{before}{CHARSET}\n{POLICY_TAG}', f'">{to_style}<style>', f'</style>{to_script}<script>', f'</script>\n{DATA}']


def hash_of(text: str) -> str:
    return 'sha256-' + base64.b64encode(hashlib.sha256(text.encode()).digest()).decode()


def page(parts: Path, made: list[str]) -> str:
    pieces = page_pieces(parts / 'web')
    style = esbuild('web/page/style.css', *EVERY, at=parts)
    if any(text in style.lower() for text in ('</style', '<!--', '\r', '\0', '\ufeff')):
        sys.exit('pack.py: the style has what could end it, or change on its way')
    policy = POLICY.format(scripts='{scripts}', style=hash_of(style))
    # The page reproduces its own text from this. The hashes of its scripts cannot be part of them.
    own = {'html': pieces, 'policy': policy.split('{scripts}'), 'made': made, 'licensed': (TOOLS.parent / 'LICENSE').is_file(),
           'style': {'size': len(style.encode()), 'sha1': hashlib.sha1(style.encode()).hexdigest()}}
    (parts / 'own.gz').write_bytes(packed(json.dumps(own, ensure_ascii=False).encode()))
    script = esbuild('web/page/main.js', *EVERY, *PAGE, '--inject:tools/joined_page.js', at=parts)
    (parts / 'script.gz').write_bytes(packed(script.encode()))
    loader = esbuild('tools/page_loader.js', *EVERY, *PAGE, at=parts)
    policy = policy.format(scripts=f"{hash_of(loader)}' '{hash_of(script)}")
    whole = f'{pieces[0]}{policy}{pieces[1]}{style}{pieces[2]}{loader}{pieces[3]}'
    if len(whole.encode()) > LARGEST_PAGE:
        sys.exit(f'pack.py: the page has {len(whole.encode())} bytes, more than {LARGEST_PAGE}')
    return whole


def packed_interface(interface: str, web: Path, module: Path, notices: Path) -> str:
    """Packs an interface in a temporary directory in which all input files have fixed names."""
    with tempfile.TemporaryDirectory() as name:
        parts = Path(name)
        (parts / 'web').symlink_to(web.resolve())
        (parts / 'tools').symlink_to(TOOLS)
        (parts / 'none.json').write_text('{}')
        (parts / 'module.gz').write_bytes(packed(read(module)))
        (parts / 'notices.gz').write_bytes(packed(read(notices)))
        if interface == 'command':
            return command(parts)
        return page(parts, versions())


def main() -> None:
    if sys.argv[1:] == ['--versions']:
        print('\n'.join(versions()))
        return
    words = argparse.ArgumentParser(description='Packs an interface into one file, by esbuild.')
    words.add_argument('interface', choices=['command', 'page'])
    words.add_argument('module', type=Path, help='the WebAssembly module')
    words.add_argument('out', type=Path)
    words.add_argument('--notices', type=Path)
    words.add_argument('--web', type=Path)
    given = words.parse_args()
    text = packed_interface(given.interface, given.web or stripped(), given.module, given.notices or given.module.with_name('NOTICES'))
    given.out.write_text(text, 'utf-8', newline='\n')
    if given.interface == 'command':
        given.out.chmod(0o755)


if __name__ == '__main__':
    main()
