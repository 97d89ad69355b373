"""Draws the pictures of the README and docs/ from the page at PAGE, with Chromium. Run by `make design`."""

import sys

import common
from states import States, all_states

# The state of each picture in docs/design, and its height in pixels, which ends below a card. All are 1280 pixels wide.
WIDTH = 1280
PICTURES = {'start': 800, 'text_hits': 748, 'texts_left': 797, 'texts_typed': 812, 'script_fits': 620, 'publish': 748, 'player_right': 812, 'second_repair': 915,
            'list': 508}


def main() -> int:
    States.setUpClass()
    page = States()
    for state, height in PICTURES.items():
        page.setUp()
        all_states()[state](page)
        page.browser.picture(common.TOP / 'docs/design' / f'{state.replace("_", "-")}.png', WIDTH, most=height)
        page.browser.size(WIDTH)
    return 0


if __name__ == '__main__':
    sys.exit(main())
