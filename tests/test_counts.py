"""`{"op":"server"}`: what a server counts, told at the socket for grants."""

import json
import os
import struct
import time
import unittest

from patience import wait_for
from programs import VERSION, is_read, submit_text
from test_clients import long_job
from test_tenants import NO_REQUEST, NO_TENANT, Room, account, grant, submit

ASKED = {"op": "server"}
KEYS = ["connections", "instance", "jobs", "lines_lost", "ok", "protocol", "refusals", "seconds", "version"]


class Counts(Room):
    def serve(self, *words, tenants=("alice",), name="grants"):
        return self.start("--clients", 16, "--sessions", 1000, "--workers", 2, "--grants", self.path(name), *self.words(*tenants), *words)

    def asked(self, client):
        """What is told, once its form is looked at."""
        text = client.told(ASKED)
        told = json.loads(text)
        self.assertEqual(json.dumps(told, separators=(",", ":")).encode(), text)
        self.assertEqual(list(told), KEYS)
        self.assertEqual((told["ok"], told["protocol"], told["version"]), (True, 1, VERSION))
        self.assertEqual(list(told["connections"]), ["open", "taken"])
        self.assertEqual(list(told["jobs"]), ["failed", "open", "over", "taken", "waiting"])
        codes = [refusal["code"] for refusal in told["refusals"]]
        self.assertEqual(codes, sorted(set(codes)))
        self.assertTrue(all(list(refusal) == ["code", "count"] and refusal["count"] > 0 for refusal in told["refusals"]))
        return told

    def until(self, client, wanted):
        """What is told, once this holds of it: a connection that was closed is counted a moment later."""
        def found():
            told = self.asked(client)
            return told if wanted(told) else None

        return wait_for(found, "a count")

    def check(self, process, door, tenants):
        """Known traffic by one door, and what is told of it."""
        granter = self.connect(process, "grants")
        first = self.asked(granter)
        self.assertEqual(first["connections"], {"open": 1, "taken": 1})
        self.assertEqual(first["jobs"], {"failed": 0, "open": 0, "over": 0, "taken": 0, "waiting": 0})
        self.assertEqual((first["refusals"], first["lines_lost"]), ([], 0))
        with self.connect(process, door) as client:
            self.assertEqual(granter.ask(grant("alice"))["balance"], 1000)
            for job in (1, 2, 3):
                self.assertEqual(client.ask(submit("alice")), {"job": job, "ok": True})
                client.over(job)
            self.assertEqual(client.ask(submit("alice", credit=2000))["code"], 75)
            for _ in range(2):
                self.assertEqual(client.ask(submit("alice", credit=2))["code"], 63)
            told = self.asked(granter)
            self.assertEqual(told["connections"], {"open": 2, "taken": 2})
            self.assertEqual(told["jobs"], {"failed": 0, "open": 0, "over": 3, "taken": 3, "waiting": 0})
            self.assertEqual(told["refusals"], [{"code": 63, "count": 2}, {"code": 75, "count": 1}])
        self.assertEqual(self.until(granter, lambda told: told["connections"]["open"] == 1)["connections"]["taken"], 2)
        with self.connect(process, door) as client:
            client.stream.sendall(struct.pack(">I", (1 << 20) + 1))
            self.assertEqual(is_read(client.stream, 1 << 10)[4:], b'{"code":71,"ok":false}')
        told = self.until(granter, lambda told: told["connections"]["open"] == 1)
        self.assertEqual(told["refusals"], [{"code": 63, "count": 2}, {"code": 71, "count": 1}, {"code": 75, "count": 1}])
        self.assertEqual(told["instance"], first["instance"])
        self.assertLessEqual(first["seconds"], told["seconds"])

    def test_a_tenant_s_traffic(self):
        self.check(self.serve(), "alice", ("alice",))

    def test_a_server_without_tenants(self):
        self.check(self.serve(tenants=()), "all", ())

    def grant_much(self, granter):
        """Grants alice the credit of three long jobs."""
        for _ in range(2):
            self.assertTrue(granter.ask(grant("alice", 2_000_000_000))["ok"])

    def stop(self, process):
        """Ends a server, and leaves no socket of it."""
        process.kill()
        process.wait()
        for name in self.names():
            if not name.startswith("journal"):
                os.unlink(self.path(name))

    def test_with_journals(self):
        for name, tenants in (("one", ()), ("two", ("alice",))):
            process = self.serve("--journal", self.path(f"journal-{name}"), tenants=tenants)
            self.check(process, "alice" if tenants else "all", tenants)
            self.stop(process)

    def test_jobs_that_begin_anew(self):
        """Those that were open in a journal are taken once more by the next start."""
        for tenants in ((), ("alice",)):
            words = ("--journal", self.path(f"journal-{len(tenants)}"))
            process = self.serve(*words, tenants=tenants)
            with self.connect(process, "grants") as granter, self.connect(process, "alice" if tenants else "all") as client:
                self.grant_much(granter)
                for job in (1, 2, 3):
                    self.assertEqual(client.ask(submit_text(*long_job(), b"", tenant="alice")), {"job": job, "ok": True})
            self.stop(process)
            process = self.serve(*words, tenants=tenants)
            with self.connect(process, "grants") as granter:
                told = self.until(granter, lambda told: told["jobs"]["waiting"] == 1)
                self.assertEqual(told["jobs"], {"failed": 0, "open": 3, "over": 0, "taken": 3, "waiting": 1})
            self.stop(process)

    def test_jobs_that_wait_and_fail(self):
        process = self.start("--clients", 4, "--workers", 1, "--grants", self.path("grants"), "--open-jobs", 3, *self.words("alice"))
        granter, alice = self.connect(process, "grants"), self.connect(process, "alice")
        self.grant_much(granter)
        for job in range(1, 4):
            self.assertEqual(alice.ask(submit_text(*long_job(), b"", tenant="alice")), {"job": job, "ok": True})
        self.assertEqual(alice.ask(submit("alice")), {"job": 4, "ok": True})
        told = self.until(granter, lambda told: told["jobs"]["waiting"] == 2)
        self.assertEqual(told["jobs"], {"failed": 1, "open": 3, "over": 0, "taken": 4, "waiting": 2})
        self.assertEqual(told["refusals"], [{"code": 81, "count": 1}])

    def test_refusals_of_each_kind(self):
        """Each reply that is a refusal, by whichever socket, but those that say that a job is open."""
        process = self.serve("--tenant-jobs", 1)
        granter, alice, everybody = (self.connect(process, name) for name in ("grants", "alice", "all"))
        granter.ask(grant("alice", 2_000_000_000))
        programs, credit = long_job()
        self.assertEqual(alice.ask(submit_text(programs, credit, b"", tenant="alice")), {"job": 1, "ok": True})
        self.assertEqual(alice.ask({"op": "result", "job": 1})["code"], 77)
        for client, asked, code in (
            (granter, account("bob"), 74),
            (everybody, grant("bob"), 73),
            (everybody, account("alice"), 74),
            (everybody, {"op": "status", "job": 9}, 76),
            (alice, {"op": "result", "job": 9}, 76),
            (alice, submit("bob"), 74),
            (alice, submit("alice")[:-1] + ',"key":"no key"}', 73),
            (alice, {"op": "jobs", "from": 0}, 73),
            (alice, "none", 72),
        ):
            self.assertEqual(client.ask(asked)["code"], code, asked)
        told = self.asked(granter)["refusals"]
        self.assertEqual({refusal["code"]: refusal["count"] for refusal in told}, {72: 1, 73: 3, 74: 3, 76: 2})

    def test_other_doors(self):
        """It is no request by them, as by a socket for grants every other form."""
        process = self.serve()
        for name in ("all", "alice"):
            with self.connect(process, name) as client:
                self.assertEqual(client.ask(ASKED), NO_REQUEST)
        with self.connect(process, "grants") as granter:
            self.assertEqual(granter.ask({"op": "jobs"}), NO_REQUEST)
            self.assertEqual(granter.ask({"op": "servers"}), NO_REQUEST)
            self.assertEqual(granter.ask({**ASKED, "tenant": "alice", "more": 1})["ok"], True)
            self.assertEqual(granter.ask(account("alice")), NO_TENANT)
            self.assertEqual(self.asked(granter)["refusals"], [{"code": 73, "count": 4}, {"code": 74, "count": 1}])

    def test_without_a_socket_for_grants(self):
        process = self.start("--sessions", 2, *self.words("alice"))
        for name in ("all", "alice"):
            with self.connect(process, name) as client:
                self.assertEqual(client.ask(ASKED), NO_REQUEST)

    def test_two_starts(self):
        """They differ in their instance."""
        instances = set()
        for tenants in (("alice",), ()):
            process = self.serve(tenants=tenants)
            with self.connect(process, "grants") as granter:
                instances.add(self.asked(granter)["instance"])
            self.stop(process)
            # the instance is the start's millisecond
            wait_for(lambda: time.time() * 1000 > max(instances) + 1, "another millisecond")
        self.assertEqual(len(instances), 2)


if __name__ == "__main__":
    unittest.main()
