"""`python -m hikebox` is the program `hikebox`."""

import sys

from hikebox_program import main

sys.exit(main())
