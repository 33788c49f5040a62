#!/usr/bin/env python3
"""A server's log as metrics for Prometheus: reads its lines from standard input, and answers GET /metrics.

    journalctl -f -o cat -u bpfjobs@alice | metrics.py PORT [--tenants FILE]
    bpfjobs serve .. --log 2> >(metrics.py PORT)
    metrics.py PORT --socket GRANTS < /dev/null

It listens on 127.0.0.1 (--address changes that); port 0 takes a free one and prints it. With the file
of `serve --tenants` each count of jobs has its tenant's name, and an empty one for all others. A line
that isn't a log's is passed over, and counted. It ends once its input has ended.

With the path of a server's socket for grants (--socket) each scrape also asks the server what it
counts. Then it goes on behind the end of its input."""

import argparse
import collections
import json
import socket
import struct
import sys
import threading
from http.server import BaseHTTPRequestHandler, ThreadingHTTPServer

TYPE = "text/plain; version=0.0.4; charset=utf-8"
PATIENCE = 5  # seconds
ASKS = b'{"op":"server"}'
BUCKETS = (1, 5, 10, 50, 100, 500, 1000, 5000, 10000, 60000)  # milliseconds
HELP = {
    "telgovan_info": "gauge, The server's version.",
    "telgovan_start_time_seconds": "gauge, When the server was ready, since 1970.",
    "telgovan_is_stopping": "gauge, Whether the server takes no more connections.",
    "telgovan_connections": "gauge, Connections that are open.",
    "telgovan_connections_opened_total": "counter, Connections that were taken, by socket.",
    "telgovan_connections_closed_total": "counter, Connections that are over, by their end and its code.",
    "telgovan_requests_total": "counter, Whole frames of connections that are over.",
    "telgovan_requests_refused_total": "counter, Requests that were refused, by code, but those for a job that is open.",
    "telgovan_jobs": "gauge, Jobs that workers run.",
    "telgovan_jobs_started_total": "counter, Jobs that a worker began with.",
    "telgovan_jobs_ended_total": "counter, Jobs that came to a report.",
    "telgovan_jobs_failed_total": "counter, Jobs that were taken and failed, by code.",
    "telgovan_credit_granted_total": "counter, Credit that tenants were granted by requests.",
    "telgovan_credit_spent_total": "counter, Credit that jobs spent.",
    "telgovan_credit_returned_total": "counter, Credit that jobs gave back.",
    "telgovan_tasks_total": "counter, Tasks of jobs that are over.",
    "telgovan_job_seconds": "histogram, How long jobs ran.",
    "telgovan_job_wait_seconds": "histogram, How long jobs waited for a worker.",
    "telgovan_notes_total": "counter, What the server told its host in words, such as a compaction.",
    "telgovan_log_lines_lost_total": "counter, Lines that the server dropped, since nobody read them in time.",
    "telgovan_log_lines_unknown_total": "counter, Lines that aren't a log's.",
    # what the server itself tells
    "telgovan_up": "gauge, Whether the server told what it counts.",
    "telgovan_instance": "gauge, The number of the server's start: two starts differ.",
    "telgovan_uptime_seconds": "gauge, How long the server has been there.",
    "telgovan_server_connections": "gauge, Connections that are open, by the server.",
    "telgovan_server_connections_total": "counter, Connections that the server has taken.",
    "telgovan_server_jobs_open": "gauge, Jobs that were taken and aren't over, by the server.",
    "telgovan_server_jobs_waiting": "gauge, Jobs that wait for a worker, by the server.",
    "telgovan_server_jobs_total": "counter, Jobs that the server has taken.",
    "telgovan_server_jobs_over_total": "counter, Jobs that came to a report, by the server.",
    "telgovan_server_jobs_failed_total": "counter, Jobs that were taken and failed, by the server.",
    "telgovan_server_refusals_total": "counter, Requests, jobs and connections that were refused, by code.",
    "telgovan_server_log_lines_lost_total": "counter, Lines of its log that the server dropped.",
}


def names_of(path):
    """The tenants of a file, as the server numbers their desks; none without a file."""
    if path is None:
        return None
    with open(path, encoding="utf-8") as file:
        rows = [line.split() for line in file]
    return ["", *(row[0] for row in rows if row and not row[0].startswith("#"))]


def read_whole(stream, count):
    """So many bytes, or an error where the stream ends ahead of them."""
    parts = b""
    while len(parts) < count:
        part = stream.recv(count - len(parts))
        if not part:
            raise OSError("the server closed the connection")
        parts += part
    return parts


def asked_of(path):
    """What a server tells at its socket for grants."""
    with socket.socket(socket.AF_UNIX) as stream:
        stream.settimeout(PATIENCE)
        stream.connect(path)
        stream.sendall(struct.pack(">I", len(ASKS)) + ASKS)
        (length,) = struct.unpack(">I", read_whole(stream, 4))
        return json.loads(read_whole(stream, length))


def number_text(value):
    return str(int(value)) if value == int(value) else repr(value)


class Metrics:
    """The counts so far. Reading the log changes them, and each scrape prints them."""

    def __init__(self, names, path=None):
        self.names, self.path, self.lock = names, path, threading.Lock()
        self.values = collections.defaultdict(dict)
        self.running = set()
        for name in ("requests", "notes", "log_lines_lost", "log_lines_unknown"):
            self.add(f"telgovan_{name}_total", 0)
        self.set("telgovan_connections", 0)
        self.set("telgovan_jobs", 0)

    def set(self, name, value, **labels):
        self.values[name][tuple(labels.items())] = value

    def add(self, name, value, **labels):
        series, key = self.values[name], tuple(labels.items())
        series[key] = series.get(key, 0) + value

    def observe(self, name, milliseconds):
        """Counts a time in a histogram."""
        self.add(f"{name}_sum", milliseconds / 1000)
        self.add(f"{name}_count", 1)
        for bucket in BUCKETS:
            self.add(f"{name}_bucket", int(milliseconds <= bucket), le=number_text(bucket / 1000))
        self.add(f"{name}_bucket", 1, le="+Inf")

    def of(self, job):
        """The label of a job's tenant, where the tenants are known."""
        if self.names is None:
            return {}
        place = job % 1000
        return {"tenant": self.names[place] if place < len(self.names) else str(place)}

    def read(self, line):
        """Counts a line of the log."""
        with self.lock:
            try:
                told = json.loads(line)
                getattr(self, "on_" + told["event"].replace(" ", "_"))(told)
                self.add("telgovan_log_lines_lost_total", told.get("lost", 0))
            except (ValueError, KeyError, TypeError, AttributeError):
                self.add("telgovan_log_lines_unknown_total", 1)

    def on_ready(self, told):
        # a start: what was open is gone
        self.running.clear()
        self.set("telgovan_connections", 0)
        self.values["telgovan_info"].clear()
        self.set("telgovan_info", 1, version=told["version"])
        self.set("telgovan_start_time_seconds", told["time"] / 1000)
        self.set("telgovan_is_stopping", 0)

    def on_stopping(self, told):
        self.set("telgovan_is_stopping", 1)

    def on_opened(self, told):
        self.add("telgovan_connections", 1)
        self.add("telgovan_connections_opened_total", 1, socket=told["socket"])

    def on_closed(self, told):
        self.add("telgovan_requests_total", told["requests"])
        self.add("telgovan_connections_closed_total", 1, code=told["code"], end=told["end"])
        self.add("telgovan_connections", -1)

    def on_started(self, told):
        self.running.add(told["job"])
        self.add("telgovan_jobs_started_total", 1, **self.of(told["job"]))
        self.observe("telgovan_job_wait_seconds", told["wait"])

    def on_ended(self, told):
        labels = self.of(told["job"])
        self.running.discard(told["job"])
        self.add("telgovan_jobs_ended_total", 1, **labels)
        self.add("telgovan_credit_spent_total", told["spent"], **labels)
        self.add("telgovan_credit_returned_total", told["returned"], **labels)
        self.add("telgovan_tasks_total", told["tasks"], **labels)
        self.observe("telgovan_job_seconds", told["ms"])

    def on_failed(self, told):
        self.running.discard(told["job"])
        self.add("telgovan_jobs_failed_total", 1, code=told["code"], **self.of(told["job"]))

    def on_granted(self, told):
        labels = {} if self.names is None else {"tenant": told.get("tenant", "")}
        self.add("telgovan_credit_granted_total", told["amount"], **labels)

    def on_refused(self, told):
        self.add("telgovan_requests_refused_total", 1, code=told["code"])

    def on_note(self, told):
        self.add("telgovan_notes_total", 1)

    def on_journal_failed(self, told):
        pass  # a note says which, and the server ends

    def on_lost(self, told):
        pass  # what was lost is counted of every line

    def ask(self):
        """Takes what the server counts, or that it doesn't tell it."""
        try:
            told = asked_of(self.path)
            jobs, connections = told["jobs"], told["connections"]
        except (OSError, ValueError, KeyError, TypeError):
            for name in [name for name in self.values if name.startswith("telgovan_server_")]:
                del self.values[name]
            self.set("telgovan_up", 0)
            return
        self.set("telgovan_up", 1)
        self.set("telgovan_instance", told["instance"])
        self.set("telgovan_uptime_seconds", told["seconds"])
        self.set("telgovan_server_connections", connections["open"])
        self.set("telgovan_server_connections_total", connections["taken"])
        for name, key in (("open", "open"), ("waiting", "waiting"), ("total", "taken"), ("over_total", "over"), ("failed_total", "failed")):
            self.set(f"telgovan_server_jobs_{name}", jobs[key])
        self.values["telgovan_server_refusals_total"].clear()
        for refusal in told["refusals"]:
            self.set("telgovan_server_refusals_total", refusal["count"], code=refusal["code"])
        self.set("telgovan_server_log_lines_lost_total", told["lines_lost"])

    def text(self):
        """All counts, in Prometheus' text format."""
        with self.lock:
            if self.path is not None:
                self.ask()
            self.set("telgovan_jobs", len(self.running))
            return "".join(line for name in HELP for line in self.lines(name))

    def lines(self, name):
        kind, _, told = HELP[name].partition(", ")
        parts = [f"{name}_bucket", f"{name}_sum", f"{name}_count"] if kind == "histogram" else [name]
        series = [(part, key, value) for part in parts for key, value in self.values[part].items()]
        if series:
            yield f"# HELP {name} {told}\n# TYPE {name} {kind}\n"
        for part, key, value in series:
            labels = ",".join(f'{label}="{text}"' for label, text in key)
            yield f"{part}{{{labels}}} {number_text(value)}\n" if labels else f"{part} {number_text(value)}\n"


def handler_for(metrics):
    class Handler(BaseHTTPRequestHandler):
        timeout = 10

        def do_GET(self):
            if self.path != "/metrics":
                self.send_error(404)
                return
            body = metrics.text().encode()
            self.send_response(200)
            self.send_header("Content-Type", TYPE)
            self.send_header("Content-Length", str(len(body)))
            self.end_headers()
            self.wfile.write(body)

        def log_message(self, *words):
            pass

    return Handler


def main():
    parser = argparse.ArgumentParser(description=__doc__, formatter_class=argparse.RawDescriptionHelpFormatter)
    parser.add_argument("port", type=int)
    parser.add_argument("--address", default="127.0.0.1")
    parser.add_argument("--tenants")
    parser.add_argument("--socket")
    words = parser.parse_args()
    metrics = Metrics(names_of(words.tenants), words.socket)
    server = ThreadingHTTPServer((words.address, words.port), handler_for(metrics))
    if words.port == 0:
        print(server.server_address[1], flush=True)
    threading.Thread(target=server.serve_forever, daemon=True).start()
    for line in sys.stdin:
        metrics.read(line)
    if words.socket is not None:
        threading.Event().wait()


if __name__ == "__main__":
    main()
