"""examples/metrics.py: a server's log as metrics, from what the server wrote to what Prometheus reads."""

import os
import shutil
import subprocess
import sys
import tempfile
import unittest
import urllib.error
import urllib.request

from patience import PATIENCE, wait_for
from programs import TOP, Server, submit_text
from rows import code_of
from test_clients import Client, result_of
from test_local import Client as LocalClient
from test_log import ADD

METRICS = os.path.join(TOP, "examples/metrics.py")
READY = '{"time":1795737599500,"event":"ready","version":"0.1.0"}'
# what a server with tenants wrote: the second one's first job, one of everybody else, a dropped line
LINES = [
    READY,
    '{"time":1795737600000,"event":"opened","connection":1,"socket":"tenant"}',
    '{"time":1795737600001,"event":"opened","connection":2,"socket":"grants","lost":3}',
    '{"time":1795737600002,"event":"granted","connection":2,"tenant":"bob","amount":40,"balance":30}',
    '{"time":1795737600003,"event":"granted","connection":2,"amount":2,"balance":2}',
    '{"time":1795737600004,"event":"started","job":1002,"connection":1,"credit":9,"programs":1,"wait":4}',
    '{"time":1795737600004,"event":"started","job":1000,"credit":3,"programs":1,"wait":600}',
    '{"time":1795737600104,"event":"ended","job":1002,"spent":7,"returned":2,"tasks":4,"buffer":8,"ms":100}',
    '{"time":1795737600105,"event":"refused","connection":1,"code":75}',
    '{"time":1795737600106,"event":"failed","job":2002,"code":81}',
    '{"time":1795737600109,"event":"closed","connection":2,"requests":5,"code":0,"end":"input","ms":9}',
    '{"time":1795737600110,"event":"note","text":"journal: compacted from 1048600 to 900 bytes"}',
    '{"time":1795737600111,"event":"journal failed"}',
    '{"time":1795737600112,"event":"lost","lost":2}',
]
TOLD = {
    'telgovan_info{version="0.1.0"}': 1,
    "telgovan_start_time_seconds": 1795737599.5,
    "telgovan_is_stopping": 0,
    "telgovan_connections": 1,
    'telgovan_connections_opened_total{socket="tenant"}': 1,
    'telgovan_connections_opened_total{socket="grants"}': 1,
    'telgovan_connections_closed_total{code="0",end="input"}': 1,
    "telgovan_requests_total": 5,
    "telgovan_jobs": 1,
    'telgovan_jobs_started_total{tenant="bob"}': 1,
    'telgovan_jobs_started_total{tenant=""}': 1,
    'telgovan_jobs_ended_total{tenant="bob"}': 1,
    'telgovan_jobs_failed_total{code="81",tenant="bob"}': 1,
    'telgovan_requests_refused_total{code="75"}': 1,
    'telgovan_credit_granted_total{tenant="bob"}': 40,
    'telgovan_credit_granted_total{tenant=""}': 2,
    'telgovan_credit_spent_total{tenant="bob"}': 7,
    'telgovan_credit_returned_total{tenant="bob"}': 2,
    'telgovan_tasks_total{tenant="bob"}': 4,
    "telgovan_notes_total": 1,
    "telgovan_log_lines_lost_total": 5,
    "telgovan_log_lines_unknown_total": 0,
    "telgovan_job_seconds_sum": 0.1,
    "telgovan_job_seconds_count": 1,
    "telgovan_job_wait_seconds_sum": 0.604,
    "telgovan_job_wait_seconds_count": 2,
    'telgovan_job_wait_seconds_bucket{le="0.001"}': 0,
    **{f'telgovan_job_wait_seconds_bucket{{le="{le}"}}': 1 for le in ("0.005", "0.01", "0.05", "0.1", "0.5")},
    **{f'telgovan_job_wait_seconds_bucket{{le="{le}"}}': 2 for le in ("1", "5", "10", "60", "+Inf")},
    **{f'telgovan_job_seconds_bucket{{le="{le}"}}': 0 for le in ("0.001", "0.005", "0.01", "0.05")},
    **{f'telgovan_job_seconds_bucket{{le="{le}"}}': 1 for le in ("0.1", "0.5", "1", "5", "10", "60", "+Inf")},
}


class Metrics(unittest.TestCase):
    def start(self, *words, stdin=subprocess.PIPE):
        """The process, and the port at which it answers."""
        process = subprocess.Popen([sys.executable, METRICS, "0", *words], stdin=stdin, stdout=subprocess.PIPE, text=True)
        self.addCleanup(process.stdout.close)
        self.addCleanup(process.wait)
        self.addCleanup(process.kill)
        if stdin is subprocess.PIPE:
            self.addCleanup(process.stdin.close)
        return process, int(process.stdout.readline())

    def scrape(self, port, path="/metrics"):
        with urllib.request.urlopen(f"http://127.0.0.1:{port}{path}", timeout=PATIENCE) as reply:
            return reply.read().decode()

    def values(self, port):
        lines = [line for line in self.scrape(port).splitlines() if not line.startswith("#")]
        return {name: float(value) for name, _, value in (line.rpartition(" ") for line in lines)}

    def until(self, port, name, value):
        """The values, once one of them is this."""
        def found():
            values = self.values(port)
            return values if values.get(name) == value else None

        return wait_for(found, name)

    def write(self, process, *lines):
        process.stdin.write("".join(f"{line}\n" for line in lines))
        process.stdin.flush()

    def test_lines(self):
        with tempfile.NamedTemporaryFile("w", suffix=".tenants") as file:
            file.write("# two tenants\nalice /run/alice\n\nbob /run/bob open-jobs 4\n")
            file.flush()
            process, port = self.start("--tenants", file.name)
            self.write(process, *LINES)
            self.assertEqual(self.until(port, "telgovan_log_lines_lost_total", 5), TOLD)

    def test_a_restart_and_what_is_no_line(self):
        process, port = self.start()
        self.write(process, "", "{", "7", '{"event":"main"}', '{"event":"closed"}', *LINES, READY.replace("9500", "9700").replace("0.1.0", "0.2.0"))
        values = self.until(port, "telgovan_start_time_seconds", 1795737599.7)
        self.assertEqual(values["telgovan_log_lines_unknown_total"], 5)
        self.assertEqual((values["telgovan_connections"], values["telgovan_jobs"]), (0, 0))
        self.assertEqual(values["telgovan_jobs_started_total"], 2)
        self.assertEqual([name for name in values if "info" in name], ['telgovan_info{version="0.2.0"}'])
        with self.assertRaises(urllib.error.HTTPError):
            self.scrape(port, "/")
        process.stdin.close()
        self.assertEqual(process.wait(PATIENCE), 0)

    def test_a_server(self):
        """What a server writes is told, and nothing else stands in its log."""
        read, write = os.pipe()
        with Server(sessions=1, more=("--log",), stderr=write) as server:
            os.close(write)
            _, port = self.start(stdin=read)
            os.close(read)
            client = Client(server)
            self.addCleanup(client.stream.close)
            client.ask({"op": "grant", "tenant": "t", "amount": 1000})
            for job in (1, 2):
                client.ask(submit_text([(0, code_of(ADD))], 3, b""))
                result_of(client, job)
            client.ask(submit_text([(0, code_of(ADD))], 2000, b""))
            values = self.until(port, 'telgovan_requests_refused_total{code="75"}', 1)
        self.assertEqual(values["telgovan_connections"], 1)
        self.assertEqual(values["telgovan_jobs_started_total"], 2)
        self.assertEqual(values["telgovan_jobs_ended_total"], 2)
        self.assertEqual(values["telgovan_credit_spent_total"], 6)
        self.assertEqual(values["telgovan_log_lines_unknown_total"], 0)

    def test_what_a_server_tells(self):
        """By its socket for grants, without a line of its log; and once it is gone."""
        with tempfile.TemporaryDirectory() as room:
            grants = os.path.join(room, "grants")
            words = ("serve", "--socket", os.path.join(room, "all"), "--grants", grants, "--clients", 4)
            _, port = self.start("--socket", grants, stdin=subprocess.DEVNULL)
            self.assertEqual(self.values(port)["telgovan_up"], 0)
            with Server(words=words) as server:
                client = LocalClient(grants, server.process)
                self.addCleanup(client.stream.close)
                client.ask({"op": "grant", "tenant": "t", "amount": 1000})
                client.ask(submit_text([(0, code_of(ADD))], 3, b""))
                result_of(client, 1)
                client.ask(submit_text([(0, code_of(ADD))], 2000, b""))
                values = self.until(port, "telgovan_up", 1)
            self.assertEqual(values["telgovan_server_connections_total"], 2)
            self.assertEqual(values["telgovan_server_jobs_total"], 1)
            self.assertEqual(values["telgovan_server_jobs_over_total"], 1)
            self.assertEqual((values["telgovan_server_jobs_open"], values["telgovan_server_jobs_waiting"]), (0, 0))
            self.assertEqual(values['telgovan_server_refusals_total{code="75"}'], 1)
            gone = self.values(port)
            self.assertEqual(gone["telgovan_up"], 0)
            self.assertEqual([name for name in gone if "server" in name], [])

    @unittest.skipUnless(shutil.which("promtool"), "needs promtool, of Debian's prometheus")
    def test_promtool(self):
        process, port = self.start()
        self.write(process, *LINES)
        self.until(port, "telgovan_requests_total", 5)
        told = subprocess.run(["promtool", "check", "metrics"], input=self.scrape(port), capture_output=True, text=True, check=False)
        self.assertEqual((told.returncode, told.stdout, told.stderr), (0, "", ""))


if __name__ == "__main__":
    unittest.main()
