"""How much hypothesis draws: RATHONSI_DRAWS is `usual` (the same examples each time), `few`, or `long` (others each time)."""

import os

from hypothesis import settings

settings.register_profile("usual", deadline=None, database=None, derandomize=True)
settings.register_profile("few", settings.get_profile("usual"), max_examples=10)
settings.register_profile("long", deadline=None, database=None, max_examples=1000)
settings.load_profile(os.environ.get("RATHONSI_DRAWS", "usual"))
