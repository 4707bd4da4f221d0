"""Whether a client in any language keeps the rules of docs/client.md: `python -m ixm.conformance
COMMAND..`.

That page says how the command is called and what it has to put. The client is run at a manager that
is played, whose replies get lost, cut and mixed up, and is killed itself; and at a real manager
that is killed too.
"""
