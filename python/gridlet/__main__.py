"""`python -m gridlet` is `gridlet-sheet`."""
import sys

from .front import main

sys.exit(main())
