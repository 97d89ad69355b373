"""Hostile patchers, opened or given to the genuine page: none runs a script, sends a request, ends the page, or leaves a file."""

from collections.abc import Iterable

import chromium
import common
import hostile
from pages import NO_PICKER, PageTest

OPENED_ANEW = 40


class Hostile(PageTest):
    stub = NO_PICKER
    server: common.Server

    @classmethod
    def setUpClass(cls) -> None:
        cls.server = common.Server(common.folder('served'))

    @classmethod
    def tearDownClass(cls) -> None:
        cls.server.close()

    def opened(self, files: Iterable[tuple[str, bytes]]) -> None:
        """Opens each patcher with the genuine page by itself."""
        walk = hostile.Walk(self.browser, self.server)
        for name, text in files:
            walk.open(name, common.PAGE.read_bytes() + text)
        self.judged(walk)

    def given(self, files: Iterable[tuple[str, bytes]]) -> None:
        """Gives the files to the genuine page."""
        walk = hostile.Walk(self.browser, self.server)
        for number, (name, text) in enumerate(files):
            if number % OPENED_ANEW == 0:
                self.browser.run('addEventListener("beforeunload", event => event.stopImmediatePropagation(), true)')
                self.browser.open(common.PAGE)
            walk.give(name, text)
        self.judged(walk)

    def judged(self, walk: hostile.Walk) -> None:
        self.assertEqual(walk.wrong, [])
        self.assertEqual(self.server.requests, [])
        own = ('console', f'request: {walk.place.as_uri()}/', f'request: {common.PAGE.as_uri()}')
        self.assertEqual([it for it in self.browser.attempts() if not it.startswith(own)], [])
        self.assertEqual(list(self.browser.downloads.iterdir()), [])
        self.assertGreater(walk.opened + walk.given, 15)

    def test_patchers_with_hostile_texts_stay_texts(self) -> None:
        self.opened(it for it in hostile.heads(self.server.url) if it[0].startswith(('head-title', 'head-note')))

    def test_what_stands_after_the_data_is_no_markup(self) -> None:
        self.opened(hostile.endings(self.server.url))

    def test_hostile_heads_that_are_given_do_nothing(self) -> None:
        page = common.PAGE.read_bytes()
        self.given((name, page + text) for name, text in [*hostile.heads(self.server.url)][::2])

    def test_broken_data_that_are_given_do_nothing(self) -> None:
        page = common.PAGE.read_bytes()
        self.given((name, page + text) for name, text in [*hostile.containers(), *hostile.scripts(self.server.url)])

    def test_pages_that_are_no_patchers_are_never_called_the_page(self) -> None:
        self.given(hostile.pages(self.server.url))

    def test_the_corpus_is_seen_where_it_runs(self) -> None:
        """A page whose script runs is detected, so the corpus would detect it."""
        path = common.folder('ran') / 'ran.html'
        path.write_bytes(dict(hostile.pages(self.server.url))['page-bare'])
        browser = chromium.shared()
        browser.open(path)
        self.assertNotEqual(browser.run(hostile.STATE), hostile.QUIET)
        common.waited(lambda: self.server.requests, 'nothing was asked for')
        self.server.requests.clear()
