"""`bpfjobs journal FILE`: a journal's records as JSON lines, and by `--check` the verdict that a server gives on it."""

import json
import os
import random
import stat
import struct
import subprocess
import time

import journals
from journals import change_of, payloads_of, record, starts_of
from patience import PATIENCE, wait_for
from programs import BPFJOBS
from test_journal import ADD, Room, grant, submit

HALF = bytes.fromhex("b7000000010000009500000000000000")


def finished(job, spent, returned, buffer, tasks):
    """The payload of a job's report. A task: number, program, spent, rest, R0, whether it ran."""
    told = b"".join(struct.pack("<IHQIIIQ?", number, program, 7, 9, used, rest, r0, ran)
                    for number, program, used, rest, r0, ran in tasks)
    head = b"\x03" + struct.pack("<QIIQ", job, spent, returned, len(buffer))
    return head + buffer + struct.pack("<Q", len(tasks)) + told


def forgotten(ahead):
    """The payload of a change that forgets, of the first so many jobs, those that are over."""
    return b"\x06" + struct.pack("<Q", ahead)


def account(tenant, granted, spent):
    """The payload of an account of a snapshot."""
    return b"\x07" + struct.pack("<Q", len(tenant)) + tenant.encode() + struct.pack("<QQ", granted, spent)


def skipped(count):
    """The payload of so many forgotten jobs of a snapshot."""
    return b"\x08" + struct.pack("<Q", count)


def kept(tenant, credit, end):
    """The payload of a job of a snapshot that is over: with the payload of its report, or with a code."""
    head = struct.pack("<Q", len(tenant)) + tenant.encode() + struct.pack("<I", credit)
    return b"\x09" + head + end[9:] if isinstance(end, bytes) else b"\x0a" + head + bytes([end])


def two_programs(tenant, credit, buffer):
    """The payload of a job of two programs."""
    start = b"\x02" + struct.pack("<Q", len(tenant)) + tenant.encode() + struct.pack("<Q", 2)
    programs = b"".join(struct.pack("<IQ", need, len(code)) + code for need, code in [(0, HALF), (4, ADD)])
    return start + programs + struct.pack("<IQ", credit, len(buffer)) + buffer


# Changes that a desk allows one after the other, of each kind.
CHANGES = [
    journals.granted("t", 100),
    journals.granted("other-tenant_9", 2**31 - 1),
    journals.submitted("t", HALF, 3),
    journals.submitted("t", ADD, 5, b"\x00\xff"),
    finished(1, 2, 1, b"", [(0, 0, 2, 0, 1, True)]),
    journals.failed(2, 81),
    two_programs("other-tenant_9", 90, b"\x01\x02\x03\x04"),
    journals.granted("t", 1),
    finished(3, 60, 30, b"\x09\x08\x07\x06", [(0, 0, 50, 2**32 - 1, 2**64 - 1, True), (1, 1, 0, 0, 0, False)]),
    forgotten(2),
    journals.submitted("t", HALF, 2),
    finished(4, 0, 2, b"", []),
    forgotten(0),
    *[journals.granted("t", amount) for amount in range(1, 8)],
]
WHOLE = b"".join(map(record, CHANGES))

# What a snapshot of a desk has, and changes behind it.
SNAPSHOT = [
    account("t", 10**12, 2**33),
    account("other", 7, 0),
    skipped(2**32),
    kept("t", 3, finished(9, 2, 1, b"\x01\x00", [(0, 0, 2, 0, 1, True)])),
    kept("other", 7, 82),
    skipped(1),
    journals.submitted("t", ADD, 5, b"\x00\xff"),
    kept("t", 0, finished(9, 0, 0, b"", [])),
    journals.failed(2**32 + 4, 81),
    journals.granted("other", 1),
]

# Changes by keys, and keys that jobs have again, as a snapshot has them.
KEYED = [
    account("t", 1000, 5),
    skipped(1),
    kept("t", 3, finished(9, 2, 1, b"\x01", [])),
    journals.submitted("t", ADD, 5, b"\x00\xff"),
    journals.key_kept(2, b"a"),
    journals.key_kept(3, b"z" * 64),
    journals.by_key(b"key-1_", journals.submitted("t", HALF, 3)),
    journals.submitted("t", HALF, 2),
    finished(4, 0, 3, b"", []),
    journals.by_key(b"key-1_", journals.submitted("t", HALF, 2)),
    journals.by_key(b"0", journals.granted("t", 7)),
    journals.by_key(b"0", journals.failed(5, 81)),
    journals.key_kept(2**64 - 1, b"-"),
]


def members_of(change, number):
    """The members of a change's object, beside its place and its key. A job that is taken gets this number."""
    kind, *parts = change
    if kind == "granted":
        return {"change": kind, "tenant": parts[0], "amount": parts[1]}
    if kind == "submitted":
        tenant, programs, credit, buffer = parts
        told = [{"code": code.hex(), "need": need} for need, code in programs]
        return {"change": kind, "tenant": tenant, "programs": told, "credit": credit, "buffer": buffer.hex(), "job": number}
    if kind == "finished":
        job, report = parts
        return {"change": kind, "job": job} | {name: value for name, value in report.items() if name != "ok"}
    if kind == "failed":
        return {"change": "finished", "job": parts[0], "code": parts[1]}
    if kind == "account":
        return {"change": "account_opened", "tenant": parts[0], "granted": parts[1], "spent": parts[2]}
    if kind == "skipped":
        return {"change": "jobs_skipped", "count": parts[0]}
    if kind == "kept":
        tenant, credit, end = parts
        kept = {"job": number, "tenant": tenant, "credit": credit}
        if end["ok"]:
            return {"change": "report_kept", "report": {name: value for name, value in end.items() if name != "ok"}} | kept
        return {"change": "failure_kept", "code": end["code"]} | kept
    if kind == "key_kept":
        return {"change": kind, "job": parts[0], "key": parts[1]}
    return {"change": kind, "ahead": parts[0]}


def line_of(members, key=None):
    """The members in order, and behind them the key of a change by a key."""
    line = json.dumps(members, sort_keys=True, separators=(",", ":"))
    return (line if key is None else f'{line[:-1]},"key":{json.dumps(key)}}}') + "\n"


def lines_of(data):
    """The lines of the whole records at the front."""
    lines, number = [], 1
    for place, payload in zip(starts_of(data), payloads_of(data)[0]):
        change, key = change_of(payload), None
        if change[0] == "by_key":
            _, key, change = change
        lines.append(line_of({"at": place, **members_of(change, number)}, key))
        number += change[1] if change[0] == "skipped" else change[0] in ("submitted", "kept")
    return "".join(lines)


def counted(count):
    return f"{count} record" if count == 1 else f"{count} records"


class Told(Room):
    """What is told of a file, in a room of its own."""

    def journal(self, *words, path=None, **how):
        """The status, and what is told on both outputs."""
        words = [BPFJOBS, "journal", path or self.server.journal, *words]
        ran = subprocess.run(words, stdin=subprocess.DEVNULL, capture_output=True, text=True, timeout=PATIENCE, check=False, **how)
        return ran.returncode, ran.stdout, ran.stderr

    def line(self, text):
        return f"bpfjobs: {self.server.journal}: {text}\n"

    def check_whole(self, data, whole=None):
        """The records of these bytes are told, and behind them nothing, or a torn record, which isn't cut off. Where there
        is no record, it isn't taken for a journal."""
        self.write(data)
        if data and whole == 0:
            for words in ((), ("--check",)):
                status, told, line = self.journal(*words)
                self.assertEqual((status, told), (3, ""))
                self.assertIn("no journal, and left as it is", line)
            return
        whole = len(data) if whole is None else whole
        torn = len(data) - whole
        tail = self.line(f"{torn} bytes of a torn record at byte {whole}") if torn else ""
        self.assertEqual(self.journal(), (0, lines_of(data[:whole]), tail))
        count = counted(len(starts_of(data[:whole])) - 1)
        verdict = f"{count}, and {torn} bytes of a torn one at byte {whole}" if torn else f"{count}, whole"
        self.assertEqual(self.journal("--check"), (0, f"{self.server.journal}: {verdict}\n", ""))
        self.assertEqual(self.data(), data)

    def check_damaged(self, data, told_first, fault):
        """So many bytes of records are told, and then the line that a server ends with."""
        self.write(data)
        self.assertEqual(self.journal(), (3, lines_of(data[:told_first]), self.line(fault)))
        self.assertEqual(self.journal("--check"), (3, "", self.line(fault)))
        self.assertEqual(self.refused(), fault)


class Records(Told):
    def test_each_kind_of_change(self):
        kinds = {json.loads(line)["change"] for line in lines_of(WHOLE).splitlines()}
        self.assertEqual((kinds, len(CHANGES)), ({"granted", "submitted", "finished", "forgotten"}, 20))
        self.check_whole(WHOLE)

    def test_a_snapshot(self):
        data = b"".join(map(record, SNAPSHOT))
        kinds = {json.loads(line)["change"] for line in lines_of(data).splitlines()}
        self.assertEqual(kinds, {"account_opened", "jobs_skipped", "report_kept", "failure_kept", "submitted", "finished", "granted"})
        self.check_whole(data)

    def test_a_snapshot_that_does_not_follow(self):
        """Each is a change, and none that a desk allows there."""
        wrong = [
            [account("t", 5, 6)],
            [account("t", 10**12 + 1, 0)],
            [account("t", 5, 0), account("t", 5, 0)],
            [journals.granted("t", 5), account("t", 5, 0)],
            [skipped(1), account("t", 5, 0)],
            [skipped(2**56 + 1)],
            [skipped(2**56), skipped(1)],
            [kept("t", 3, 82)],
            [account("t", 5, 1), kept("t", 3, finished(9, 2, 1, b"", []))],
            [account("t", 5, 2), kept("t", 2, finished(9, 2, 0, b"", [])), kept("t", 2, finished(9, 1, 0, b"", []))],
            [account("t", 5, 0), kept("t", 3, 81), journals.failed(1, 81)],
            [account("t", 5, 5), journals.submitted("t", ADD, 3)],
        ]
        for changes in wrong:
            with self.subTest(changes=changes):
                data = b"".join(map(record, changes))
                ahead = len(data) - len(record(changes[-1]))
                self.write(data)
                self.assertEqual(self.journal(), (0, lines_of(data), ""))
                fault = f"damaged at byte {ahead}: the record there doesn't follow from those ahead"
                self.assertEqual(self.journal("--check"), (3, "", self.line(fault)))
                self.assertEqual(self.refused(), fault)

    def test_changes_with_keys(self):
        data = b"".join(map(record, KEYED))
        told = [json.loads(line) for line in lines_of(data).splitlines()]
        self.assertEqual([(one["change"], one.get("job"), one["key"]) for one in told if "key" in one], [
            ("key_kept", 2, "a"), ("key_kept", 3, "z" * 64), ("submitted", 4, "key-1_"), ("submitted", 6, "key-1_"),
            ("granted", None, "0"), ("finished", 5, "0"), ("key_kept", 2**64 - 1, "-"),
        ])
        self.check_whole(data)

    def test_lines_with_keys_as_they_are_written(self):
        self.write(b"".join(map(record, [CHANGES[0], journals.by_key(b"abc", CHANGES[2]), journals.key_kept(1, b"abc")])))
        program = f'[{{"code":"{HALF.hex()}","need":0}}]'
        self.assertEqual(self.journal()[1].splitlines(), [
            '{"amount":100,"at":0,"change":"granted","tenant":"t"}',
            f'{{"at":22,"buffer":"","change":"submitted","credit":3,"job":1,"programs":{program},"tenant":"t","key":"abc"}}',
            '{"at":100,"change":"key_kept","job":1,"key":"abc"}',
        ])

    def test_keys_that_no_job_has(self):
        """A key is told as a name is. The verdict refuses a change by what is no key."""
        keys = [(b"", ""), (b"a" * 65, "a" * 65), (b"A", "A"), (b'a"\n\xc3\xa9', 'a"\né'), (b"\xff\x00", {"bytes": "ff00"})]
        for key, told in keys:
            for payload in (journals.by_key(key, CHANGES[2]), journals.key_kept(1, key)):
                with self.subTest(payload=payload):
                    self.write(record(CHANGES[0]) + record(payload))
                    status, lines, fault = self.journal()
                    self.assertEqual((status, fault, json.loads(lines.splitlines()[1])["key"]), (0, "", told))
                    fault = "damaged at byte 22: the record there doesn't follow from those ahead"
                    self.assertEqual(self.journal("--check"), (3, "", self.line(fault)))
                    self.assertEqual(self.refused(), fault)

    def test_lines_as_they_are_written(self):
        self.write(b"".join(map(record, CHANGES[:6])))
        task = '{"number":0,"program":0,"r0":1,"ran":true,"rest":0,"spent":2}'
        first, second = (f'[{{"code":"{code.hex()}","need":0}}]' for code in (HALF, ADD))
        self.assertEqual(self.journal()[1].splitlines(), [
            '{"amount":100,"at":0,"change":"granted","tenant":"t"}',
            '{"amount":2147483647,"at":22,"change":"granted","tenant":"other-tenant_9"}',
            f'{{"at":57,"buffer":"","change":"submitted","credit":3,"job":1,"programs":{first},"tenant":"t"}}',
            f'{{"at":123,"buffer":"00ff","change":"submitted","credit":5,"job":2,"programs":{second},"tenant":"t"}}',
            f'{{"at":199,"buffer":"","change":"finished","job":1,"returned":1,"spent":2,"tasks":[{task}]}}',
            '{"at":275,"change":"finished","code":81,"job":2}',
        ])

    def test_a_servers_journal(self):
        client = self.start("--keep", 1)
        client.ask(grant(100))
        results = []
        for job in (1, 2, 3):
            self.assertEqual(client.ask(submit()), {"job": job, "ok": True})
            results.append(json.loads(client.over(job)))
        client.ask(grant(1, "u"))
        self.server.kill()
        data = self.data()
        self.check_whole(data)
        told = [json.loads(line) for line in self.journal()[1].splitlines()]
        self.assertEqual([one["job"] for one in told if one["change"] == "submitted"], [1, 2, 3])
        ended = [one for one in told if one["change"] == "finished"]
        self.assertEqual([{"ok": True} | {name: one[name] for name in results[0] if name != "ok"} for one in ended], results)
        self.assertIn("forgotten", {one["change"] for one in told})

    def test_while_a_server_runs(self):
        client = self.start()
        for amount in range(1, 6):
            client.ask(grant(amount))
            self.check_untouched()
        self.assertEqual(client.ask(grant(1))["granted"], 16)
        self.server.kill()
        self.check_whole(self.data())

    def check_untouched(self):
        before = os.stat(self.server.journal)
        status, lines, told = self.journal()
        self.assertEqual((status, lines, told), (0, lines_of(self.data()), ""))
        after = os.stat(self.server.journal)
        self.assertEqual((before.st_mtime_ns, before.st_size, before.st_ino), (after.st_mtime_ns, after.st_size, after.st_ino))

    def test_names_that_no_desk_has(self):
        """A name is told as text, with JSON's escapes, and bytes that are no text in hexadecimal: but the verdict refuses both."""
        for name, told in [(b'a"\n\xc3\xa9', 'a"\né'), (b"", ""), (b"\xff\x00", {"bytes": "ff00"})]:
            payload = b"\x01" + struct.pack("<Q", len(name)) + name + struct.pack("<I", 5)
            self.write(record(CHANGES[0]) + record(payload))
            status, lines, fault = self.journal()
            self.assertEqual((status, fault), (0, ""))
            self.assertEqual(json.loads(lines.splitlines()[1]), {"at": 22, "change": "granted", "tenant": told, "amount": 5})

    def test_many_records(self):
        """Some megabytes of them."""
        data = record(CHANGES[0]) + record(CHANGES[2]) * 20_000
        self.write(data)
        status, lines, told = self.journal()
        self.assertEqual((status, told, len(lines.splitlines())), (0, "", 20_001))
        self.assertEqual(json.loads(lines.splitlines()[-1])["job"], 20_000)


class Ends(Told):
    def test_an_empty_file(self):
        self.check_whole(b"")

    def test_torn_at_each_byte(self):
        starts = starts_of(WHOLE)
        for cut in range(len(WHOLE)):
            with self.subTest(cut=cut):
                self.check_whole(WHOLE[:cut], max(start for start in starts if start <= cut))

    def test_zeros_at_the_end(self):
        for count in (1, 8, 5000):
            self.check_whole(WHOLE + bytes(count), len(WHOLE))

    def test_single_flipped_bits(self):
        """In the last record a bit leaves a torn one, and ahead of another it is damage, as a server has it."""
        starts = starts_of(WHOLE)
        picked = random.Random(5).sample([(at, bit) for at in range(len(WHOLE)) for bit in range(8)], 120)
        for at, bit in picked + [(start + part, 0) for start in starts[-3:-1] for part in range(journals.HEADER)]:
            with self.subTest(at=at, bit=bit):
                changed = bytearray(WHOLE)
                changed[at] ^= 1 << bit
                start = max(start for start in starts[:-1] if start <= at)
                if start == starts[-2]:
                    self.check_whole(bytes(changed), start)
                    continue
                following = starts[starts.index(start) + 1]
                self.check_damaged(bytes(changed), start, f"damaged at byte {start}: a whole record stands at byte {following}")

    def test_records_that_say_no_change(self):
        by_key, key_kept = journals.by_key(b"a", CHANGES[0]), journals.key_kept(1, b"a")
        with_keys = [by_key + b"\0", by_key[:-1], journals.by_key(b"a", b""), journals.by_key(b"a", by_key),
                     journals.by_key(b"a", key_kept), key_kept + b"\0", key_kept[:-1], b"\x0b" + bytes(8)]
        for payload in (b"", b"\x09", b"\x01", CHANGES[0] + b"\0", b"\x05" + bytes(7), *with_keys):
            fault = f"damaged at byte {len(WHOLE)}: the record there is no change of a desk"
            self.check_damaged(WHOLE + record(payload) + WHOLE[:22], len(WHOLE), fault)

    def test_records_that_do_not_follow(self):
        """They are told, since each is a change. The verdict is that of a server."""
        for payload in (journals.submitted("t", HALF, 10_000), journals.submitted("x", HALF, 1), journals.failed(1, 81),
                        journals.failed(9, 81), finished(2, 1, 1, b"", []), journals.granted("t", 0),
                        journals.granted("other-tenant_9", 2**31)):
            with self.subTest(payload=payload):
                data = WHOLE + record(payload) + record(CHANGES[0])
                self.write(data)
                self.assertEqual(self.journal(), (0, lines_of(data), ""))
                status, lines, told = self.journal("--check")
                status_of_server, told_by_server = self.server.run()
                # a server that goes on may compact the journal
                faults = "".join(line for line in told_by_server.splitlines(keepends=True) if "compacted" not in line)
                self.assertEqual((status, told), (status_of_server, faults))
                if status:
                    fault = f"damaged at byte {len(WHOLE)}: the record there doesn't follow from those ahead"
                    self.assertEqual((status, lines, told), (3, "", self.line(fault)))

    def test_bytes_of_something_else(self):
        self.check_whole(b"a text\n" * 9, 0)


class Files(Told):
    def test_no_file(self):
        """None is made."""
        for words in ((), ("--check",)):
            self.assertEqual(self.journal(*words), (3, "", self.line("No such file or directory (os error 2)")))
        self.assertEqual(os.listdir(self.room), [])

    def test_no_regular_file(self):
        pipe = os.path.join(self.room, "pipe")
        os.mkfifo(pipe)
        for path in (self.room, "/dev/null", "/dev/zero", pipe):
            for words in ((), ("--check",)):
                self.assertEqual(self.journal(*words, path=path), (3, "", f"bpfjobs: {path}: no regular file\n"))

    def test_the_file_is_only_read(self):
        self.write(WHOLE[:-1])
        os.chmod(self.server.journal, stat.S_IRUSR)
        before = os.stat(self.server.journal)
        # the clock of a file system moves by some milliseconds
        wait_for(lambda: time.time_ns() > before.st_ctime_ns + 10_000_000, "the clock")
        for words in ((), ("--check",)):
            self.assertEqual(self.journal(*words)[0], 0)
        after = os.stat(self.server.journal)
        self.assertEqual((before.st_mtime_ns, before.st_ctime_ns), (after.st_mtime_ns, after.st_ctime_ns))
        self.assertEqual((self.data(), os.listdir(self.room)), (WHOLE[:-1], ["journal"]))

    def test_an_output_that_fails(self):
        self.write(WHOLE)
        for words in ((), ("--check",)):
            with open("/dev/full", "wb") as full:
                ran = subprocess.run([BPFJOBS, "journal", self.server.journal, *words], stdout=full, stderr=subprocess.PIPE,
                                     timeout=PATIENCE, check=False)
            self.assertEqual((ran.returncode, ran.stderr), (3, b""))

    def test_words(self):
        self.write(WHOLE)
        for words in (["journal"], ["journal", "a", "b"], ["journal", "--check"], ["journal", "a", "--check", "--check"], ["journal", "a", "--all"]):
            ran = subprocess.run([BPFJOBS, *words], capture_output=True, text=True, timeout=PATIENCE, check=False, cwd=self.room)
            self.assertEqual((ran.returncode, ran.stdout, ran.stderr[:7]), (2, "", "error: "), words)
        self.assertEqual(self.journal("--check"), self.journal("--check", path=self.server.journal))
        ran = subprocess.run([BPFJOBS, "journal", "--check", "journal"], capture_output=True, text=True, timeout=PATIENCE, check=False, cwd=self.room)
        self.assertEqual((ran.returncode, ran.stdout), (0, "journal: 20 records, whole\n"))
