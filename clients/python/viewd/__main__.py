"""`python3 -m viewd` is the command line."""
import sys

from .command import main

sys.exit(main())
