"""A desk for the author of rules: comments and named parts, faults at their places, suites of cases, drawings
(docs/desk.md). Nothing of it is proved: the program `ixm` alone decides whether a text is right, and what it permits."""
