"""The files that the page may read and save: the rules that the command names, and beside each of them its suite."""

import hashlib
import os
import shutil
import tempfile
import threading

from ixm.desk.texts import read

ABSENT = ""  # the stamp of a file that isn't there


class Changed(Exception):
    """The file isn't any more what it was when it was read, so it was left as it is."""


class Kept:
    """A file with a text. A stamp stands for what was in it."""

    def __init__(self, path: str) -> None:
        self.path, self.saving = path, threading.Lock()

    def read(self) -> tuple[str, str]:
        """Its text and its stamp; an empty text if it isn't there."""
        try:
            text = read(self.path)
        except FileNotFoundError:
            return "", ABSENT
        return text, hashlib.sha256(text.encode()).hexdigest()

    def save(self, text: str, stamp: str) -> str:
        """Puts this text in place of the one that has this stamp, and returns the new stamp. Who reads the file meanwhile
        sees one of the two, whole."""
        with self.saving:
            if self.read()[1] != stamp:
                raise Changed
            if stamp == ABSENT:
                self.make(text)
            else:
                self.replace(text)
        return hashlib.sha256(text.encode()).hexdigest()

    def make(self, text: str) -> None:
        try:
            with open(self.path, "xb") as file:
                file.write(text.encode())
        except FileExistsError:
            raise Changed from None

    def replace(self, text: str) -> None:
        target = os.path.realpath(self.path)
        handle, beside = tempfile.mkstemp(prefix=".ixm-desk-", dir=os.path.dirname(target))
        try:
            with open(handle, "wb") as file:
                file.write(text.encode())
                file.flush()
                os.fsync(handle)
            shutil.copymode(target, beside)
            os.replace(beside, target)
        except OSError:
            os.unlink(beside)
            raise


class House:
    """A file of rules, and its suite `RULES.cases`, which need not be there."""

    def __init__(self, rules: str) -> None:
        self.name = rules
        self.texts = {"rules": Kept(rules), "cases": Kept(f"{rules}.cases")}
