"""`python3 -m nesthrim.stress stress FILE ..` and `python3 -m nesthrim.stress races FILE`, as the script ./mpwb calls them."""

import sys

from .command import main

sys.exit(main())
