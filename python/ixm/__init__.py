"""What workflow engines in Python need to talk to an interaction manager; the standard library
alone.

`ixm.engine` brings actions about exactly once, `ixm.aio` is its twin for asyncio, `ixm.played`
plays a manager for tests of engines, `ixm.conformance` tries a client in any language, and
`ixm.trials` starts real managers.
"""
