// The page's own text: the parts of the document that it consists of, and when publishing is refused.

import assert from 'node:assert/strict';
import { createHash } from 'node:crypto';
import { test } from 'node:test';
import { calls, page } from './page.mjs';

const { OWN } = await page('app/pool.js');
const { pageSource, publishedSource } = await page('player/patcher.js');

const style = 'p { color: black }';
const policy = `script-src 'sha256-${'A'.repeat(43)}=' 'sha256-${'B'.repeat(43)}='; style-src 'none'`;
const whole = `<a>${policy}<b>${style}<c>load<d>`;
Object.assign(OWN, {
    html: ['<a>', '<b>', '<c>', '<d>'], policy: ["script-src '", "'; style-src 'none'"],
    style: { size: style.length, sha1: createHash('sha1').update(style).digest('hex') },
});
globalThis.JOINED = { script: 'code', loader: 'load' };

/** A document with these styles and policies. */
function has(styles, policies) {
    globalThis.document = { querySelectorAll: css => css === 'style' ? styles.map(textContent => ({ textContent }))
        : policies.map(text => ({ getAttribute: () => text })) };
}

test('its own text is made of its style and its policy', () => {
    has([style], [policy]);
    assert.equal(pageSource(calls), whole);
    assert.equal(publishedSource(calls), whole);
});

test('a style is its own by its length and its hash', () => {
    for (const other of [`${style} `, 'p { color: white }', '']) {
        has([other], [policy]);
        assert.throws(() => pageSource(calls), /has changed this page/);
        has([style, other], [policy]);
        assert.equal(publishedSource(calls), whole);
        has([other, style], [policy]);
        assert.equal(pageSource(calls), whole);
        assert.throws(() => publishedSource(calls), /has changed this page/);
    }
});

test('a policy is its own by all of its text, with the hashes of two scripts', () => {
    const others = ['', policy.replace('none', 'self'), policy.replace('AA', 'AAA'), policy.replace('AA', 'A'), policy.replace('sha256', 'sha512'),
        policy.replace(/ 'sha256-B+='/, '')];
    for (const other of others) {
        has([style], [other]);
        assert.throws(() => pageSource(calls), /has changed this page/, other);
        has([style], [policy, other]);
        assert.equal(publishedSource(calls), whole);
        has([style], [other, policy]);
        assert.throws(() => publishedSource(calls), /has changed this page/);
    }
});
