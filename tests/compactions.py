"""Servers whose compactions are counted, by the notes of their logs."""

import glob
import json
import re
import threading

from journals import Keeper, TenantKeeper

COMPACTED = re.compile(r"(.+): compacted from (\d+) to (\d+) bytes")
NOT_COMPACTED = re.compile(r"(.+): not compacted: .+")
SNAPSHOT = ".snapshot.new"


class Counted:
    """Beside a keeper: the logs of its servers go to a file."""

    def __init__(self, *words, **how):
        super().__init__(*words, **how)
        self.log = self.journal + "-log"
        self.lock = threading.Lock()
        # how far the log is read, whether the server that runs is ready, and its notes since then
        self.at, self.is_ready, self.told = 0, False, []
        # how many compactions came while servers ran, and how many kills left a snapshot in the making
        self.live, self.cut_short = 0, 0

    def start(self, *more, **how):
        self.end()
        with open(self.log, "ab") as lines:
            self.at, self.is_ready, self.told = lines.tell(), False, []
            return super().start("--log", *more, stderr=lines, **how)

    def kill(self):
        super().kill()
        self.live += len(self.compacted())
        # a start removes what a kill has left
        self.cut_short += self.is_ready and self.is_compacting()
        self.is_ready, self.told = False, []

    def is_compacting(self):
        """Whether a snapshot of some journal is in the making, or was as its server was killed."""
        return bool(glob.glob(glob.escape(self.journal) + "*" + SNAPSHOT))

    def notes(self):
        """The notes since the server was ready. Those of its start aren't among them."""
        with self.lock, open(self.log, "rb") as file:
            file.seek(self.at)
            lines = file.read()
            whole = lines[: lines.rfind(b"\n") + 1]
            self.at += len(whole)
            for line in whole.splitlines():
                if b'"event":"ready"' in line:
                    self.is_ready = True
                elif self.is_ready and b'"event":"note"' in line:
                    self.told.append(json.loads(line)["text"])
            return list(self.told)

    def compacted(self):
        """The compactions since the server was ready: the journal's path, and both sizes."""
        found = [match.groups() for match in map(COMPACTED.fullmatch, self.notes()) if match]
        return [(path, int(old), int(new)) for path, old, new in found]

    def not_compacted(self):
        """The paths of the journals of which the server told that they aren't compacted."""
        return [match[1] for match in map(NOT_COMPACTED.fullmatch, self.notes()) if match]


class CountedKeeper(Counted, Keeper):
    pass


class CountedTenantKeeper(Counted, TenantKeeper):
    pass
