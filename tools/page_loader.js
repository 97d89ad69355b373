// Starts the page's script, which is stored gzipped. The page's policy has the hashes of both, so a browser runs no other. The script finds
// the text of the loader in the property `loader` of its own element.

import packed from '../script.gz';

async function start({ textContent }) {
    const bytes = Uint8Array.from(atob(packed), it => it.charCodeAt(0));
    const text = await new Response(new Blob([bytes]).stream().pipeThrough(new window.DecompressionStream('gzip'))).text();
    const script = document.createElement('script');
    script.loader = textContent;
    const types = window.trustedTypes;
    script.textContent = types ? types.createPolicy('cdpatch-script', { createScript: given => given }).createScript(text) : text;
    document.head.append(script);
    script.remove();
}

start(document.currentScript);
