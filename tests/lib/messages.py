"""The messages of messages.sh by name, except those that contain a number."""

import re
from pathlib import Path

MESSAGES = dict(re.findall(r"^(\w+)='(.*)'$", Path(__file__).with_suffix('.sh').read_text(encoding='ascii'), re.M))
