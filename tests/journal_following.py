"""A journal's file, read by its records while a server writes to it, also where snapshots take its name."""

import os

from journals import Book, NotARecord, book_of_changes, change_of, payloads_of

# The kinds of change that stand in a snapshot alone. What is behind the last of them came later.
OF_SNAPSHOTS = ("account", "skipped", "kept", "key_kept")


class Followed:
    """The records of a journal up to some place, and what they come to.

    A file that loses the journal's name to a snapshot is read to its end. The snapshot and the records behind it
    have to lead to the same, which is told by `expect`. While the server runs a snapshot may also have changes that the
    old file never got. `may_forget` says of a job's number whether its report may be gone."""

    def __init__(self, path, expect, may_forget):
        self.path, self.expect, self.may_forget = path, expect, may_forget
        self.book, self.compactions, self.is_running = Book(), 0, False
        # the descriptors of the files that aren't read to their end, and which of them has the name
        self.files, self.node = [], None
        # how far the first of them is read, and the payloads up to there
        self.at, self.payloads, self.is_later = 0, [], False

    def look(self):
        """Opens the file that has the name, where that is another one than before."""
        try:
            if os.stat(self.path).st_ino == self.node:
                return
            file = os.open(self.path, os.O_RDONLY)
        except FileNotFoundError:
            return
        self.node = os.fstat(file).st_ino
        self.files.append(file)

    def close(self):
        for file in self.files:
            os.close(file)
        self.files, self.node = [], None

    def catch_up(self):
        """Reads the records that are new, and gives what stands behind them."""
        self.look()
        rest = self.read()
        while len(self.files) > 1:
            self.expect(not rest, f"{len(rest)} bytes of no record at the end of a journal that was compacted")
            os.close(self.files.pop(0))
            before, self.payloads, self.at, self.is_later = self.payloads, [], 0, True
            rest = self.read(before)
        return rest

    def read(self, before=()):
        """Reads on in the first file. `before` has the payloads of the file whose name it has taken."""
        if not self.files:
            return b""
        length = os.fstat(self.files[0]).st_size - self.at
        data = os.pread(self.files[0], max(length, 0), self.at)
        payloads, rest = payloads_of(data)
        self.at += len(data) - len(rest)
        changes = [change_of(payload) for payload in payloads]
        if self.is_later and not self.payloads:
            changes = self.take_over(before, payloads, changes)
        for change in changes:
            self.book.add(change)
        self.payloads += payloads
        return rest

    # ---- a snapshot

    def take_over(self, before, payloads, changes):
        """A snapshot has taken the name, and perhaps records of the old file stand behind it. Gives those that don't."""
        self.compactions += 1
        kinds = [change[0] for change in changes]
        first = max((at + 1 for at, kind in enumerate(kinds) if kind in OF_SNAPSHOTS), default=0)
        shared = self.shared(before, payloads[first:], changes, first)
        new = book_of_changes(changes[: first + (shared or 0)])
        if shared is None:
            self.expect(self.is_running and self.is_ahead(new), "a snapshot of other accounts or jobs")
        self.compare(new, shared is not None)
        return changes[first + (shared or 0) :]

    def shared(self, before, later, changes, first):
        """How many of the records behind a snapshot are the old file's last ones, so that both lead to as many grants
        and jobs. None where they never do: the snapshot has changes that the old file never had."""
        book, found = book_of_changes(changes[:first]), None
        for count in range(len(later) + 1):
            if count:
                book.add(changes[first + count - 1])
            is_last = not count or later[count - 1] == before[-1]
            if is_last and later[:count] == list(before[len(before) - count :]) and self.is_as_far(book):
                found = count
            if len(book.jobs) > len(self.book.jobs) or count == len(before):
                break
        return found

    def is_as_far(self, new):
        old = self.book
        is_as_long = new.granted == old.granted and len(new.jobs) == len(old.jobs) and set(new.ends) <= set(old.ends)
        return is_as_long and new.accounts() == old.accounts()

    def is_ahead(self, new):
        granted = all(new.granted.get(tenant, 0) >= amount for tenant, amount in self.book.granted.items())
        return granted and len(new.jobs) >= len(self.book.jobs)

    def compare(self, new, is_exact):
        """A snapshot says what the records had said. Where it isn't exact it may say what came later, too."""
        old, known = self.book, len(self.book.jobs)
        self.compare_keys(new, known)
        forgotten = old.gone - new.gone
        for number, end in new.ends.items():
            self.expect(number not in forgotten, f"the forgotten job {number} is in the snapshot")
            is_known = number in old.ends or not is_exact
            self.expect(is_known and old.ends.setdefault(number, end) == end, f"the end of job {number} is another one in the snapshot")
        for number, (job, before) in enumerate(zip(new.jobs, old.jobs), 1):
            self.expect(is_alike(job, before, number in old.ends), f"job {number} is another one in the snapshot")
            is_there = job is not None and number not in new.gone
            self.expect(is_there or number in old.ends and self.may_forget(number), f"job {number} isn't in the snapshot")
        old.jobs += new.jobs[known:]
        old.gone |= new.gone
        old.granted.update(new.granted)
        self.compare_accounts(new.accounts(), is_exact)

    def compare_keys(self, new, known):
        """The keys of the jobs that were known are the last ones that the records had, and new ones stand behind them."""
        old = self.book
        kept = [(number, key) for number, key in new.remembered() if number <= known]
        is_all = len(kept) == len(old.remembered()) or len(new.keyed) > len(kept)
        self.expect(is_all and kept == old.keyed[len(old.keyed) - len(kept) :], "a snapshot of other keys")
        old.keyed += [(number, key) for number, key in new.remembered() if number > known]

    def compare_accounts(self, accounts, is_exact):
        """The sums of the accounts. What jobs cost that no file told of is spent by their tenants from now on."""
        for tenant, account in self.book.accounts().items():
            more = accounts[tenant]["spent"] - account["spent"]
            if not is_exact and more > 0:
                self.book.past[tenant] = self.book.past.get(tenant, 0) + more
                account = {**account, "spent": account["spent"] + more, "balance": account["balance"] - more}
            self.expect(accounts[tenant] == account, f"the account of {tenant} in the snapshot")


def is_alike(job, before, is_over):
    """Whether a job of a snapshot is one that was recorded before. One that is over may have less there."""
    if not is_over or job is None or before is None:
        return is_over or job == before
    return job == before or job == (before[0], None, before[2], None)
