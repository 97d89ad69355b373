// A minimal document for the parts of the page that draw, and a record of downloads.

/** @type {Map<string, Blob>} */
const addresses = new Map();

class Part {
    constructor() {
        this.childNodes = [];
        this.attributes = new Map();
        this.listeners = new Map();
        this.style = { setProperty() {} };
        this.dataset = {};
        this.classList = { add() {}, remove() {}, toggle() {} };
        this.value = this.text = '';
        this.hidden = false;
        this.files = [];
        this.parentElement = null;
    }

    get firstChild() { return this.childNodes[0] ?? null; }
    get nextSibling() { return null; }
    get textContent() { return this.text + this.childNodes.map(it => typeof it === 'string' ? it : it.textContent).join(''); }
    set textContent(text) { [this.text, this.childNodes] = [text, []]; }
    append(...parts) { this.childNodes.push(...parts); }
    insertBefore(part) { this.childNodes.push(part); }
    removeChild(part) { this.childNodes = this.childNodes.filter(it => it !== part); }
    replaceChildren(...parts) { this.childNodes = parts; }
    remove() {}
    addEventListener(name, listener) { this.listeners.set(name, listener); }
    setAttribute(name, value) { this.attributes.set(name, value); }
    getAttribute(name) { return this.attributes.get(name) ?? null; }
    getAttributeNames() { return [...this.attributes.keys()]; }
    hasAttribute(name) { return this.attributes.has(name); }
    removeAttribute(name) { this.attributes.delete(name); }
    contains() { return false; }
    closest() { return null; }
    querySelector() { return null; }
    querySelectorAll() { return []; }
    focus() {}
    scrollIntoView() {}
    click() { if (this.attributes.has('download')) downloads.push(addresses.get(this.attributes.get('href'))); }
}

class Observer {
    observe() {}
    disconnect() {}
}

/** The downloaded files. @type {Blob[]} */
export const downloads = [];

/** Provides a document until a test ends. */
export function withDocument(t) {
    const made = text => Object.assign(new Part(), { text: text ?? '' });
    const parts = new Map();
    const byId = id => parts.get(id) ?? parts.set(id, made()).get(id);
    const document = { createElement: () => made(), createElementNS: () => made(), createTextNode: made, getElementById: byId, activeElement: null,
        body: made(), addEventListener() {}, querySelectorAll: () => [] };
    const { createObjectURL } = URL;
    URL.createObjectURL = blob => {
        addresses.set(`blob:${addresses.size}`, blob);
        return `blob:${addresses.size - 1}`;
    };
    const window = { addEventListener() {} };
    const globals = { Node: Part, Element: Part, HTMLElement: Part, MutationObserver: Observer, ResizeObserver: Observer, document, window };
    Object.assign(globalThis, globals);
    t.after(() => {
        URL.createObjectURL = createObjectURL;
        downloads.length = 0;
        for (const name of Object.keys(globals)) delete globalThis[name];
    });
}
