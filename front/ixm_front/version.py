"""The version of this repository: the first line of its file VERSION."""

import os
from functools import cache

HERE = os.path.dirname(os.path.realpath(__file__))


@cache
def version() -> str:
    """The version, or `unknown` where there is no such file beside the programs or above them."""
    for folder in (f"{HERE}/..", f"{HERE}/../.."):
        try:
            with open(f"{folder}/VERSION", encoding="ascii") as file:
                return file.readline().strip() or "unknown"
        except (OSError, ValueError):
            continue
    return "unknown"
