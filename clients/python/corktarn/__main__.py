"""`python3 -m corktarn` is the command line."""

import sys

from corktarn.cli import main

sys.exit(main())
