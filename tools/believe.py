#!/usr/bin/env python3
"""believe.py [--write]: what must be believed of this repository, against docs/BELIEVE.md.

The claims are the contracts of what each program calls, of the traits that these calls range over, and of the laws.
From the names in them the definitions of specs/ and the declared types and constants of src/ are followed as far as
they go. What is reached must be believed by whoever reads "proved".

It ends with 1 and a line for each fault where the page doesn't list what is reached, in an order in which it can be
read; where a text that is believed isn't the one whose digest is kept, each with what its names stand for; where a name
can't be followed or is another's; where a claim could hide; where a definition stands on the wrong side of
specs/inside/; and where docs/promises.md names what isn't there, or nothing that carries a promise. With --write it first
writes the lists of the page and the digests anew, and leaves the prose."""

import os
import sys

sys.dont_write_bytecode = True

from claims.run import main  # noqa: E402

sys.exit(main(os.path.dirname(os.path.dirname(os.path.abspath(__file__))), sys.argv[1:]))
