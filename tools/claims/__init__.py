"""What must be believed of this repository: its claims, what they reach, and whether the pages say so."""
