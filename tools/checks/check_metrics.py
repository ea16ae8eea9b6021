#!/usr/bin/env -S python3 -B
"""The metrics of both servers over real sockets, read by the rules of Prometheus' text format 0.0.4, and what they count.

    python3 -B tools/checks/check_metrics.py [PROGRAM]

Each line of both texts is read here, and by `promtool check metrics` where Debian's package prometheus is installed. Then requests are
made whose statuses are known, tokens are pushed that are taken, taken again and refused, and to an endpoint where nobody listens; each
count grows by what was done, a late stream is told with when it is tried again, and the bytes of a store are those of its file. No
bearer opens the other server's metrics, or a client's, and no text of a client stands in them but the names of streams.

Without a built program, or where no socket can be opened, it says that it is passed over.
"""
import os
import re
import shutil
import subprocess
import sys
import tempfile
import time
import uuid

sys.dont_write_bytecode = True
sys.path.insert(0, os.path.join(os.path.dirname(os.path.abspath(__file__)), ".."))
from checks.check_pushes import Endpoint, published, push_stream, until
from checks.check_receiver import Receiver
from checks.check_server import Server
from checks.receiver_rows import push, token
from checks.served import built_program, free_port, need

LINE = re.compile(r'([a-zA-Z_:][a-zA-Z0-9_:]*)(?:\{((?:[a-zA-Z_][a-zA-Z0-9_]*="(?:[^"\\\n]|\\\\|\\"|\\n)*",?)+)\})? (\S+)')


def read(text):
    """The values of metrics by their names and labels. Each name has its help and its kind once, before its lines, which stand together."""
    kinds, values, names = {}, {}, []
    need(text.endswith("\n"), "the last line has no end")
    lines = text[:-1].split("\n")
    for place, line in enumerate(lines):
        if line.startswith("# HELP "):
            name = line.split(" ")[2]
            need(name not in kinds and lines[place + 1].startswith(f"# TYPE {name} "), f"{name} has its help twice, or no kind")
            kinds[name] = lines[place + 1].split(" ")[3]
            need(kinds[name] in ("counter", "gauge"), f"{name} is of the kind {kinds[name]}")
            names.append(name)
        elif not line.startswith("# TYPE "):
            found = LINE.fullmatch(line)
            need(found and found[1] == names[-1], f"this is no line of {names[-1:]}: {line!r}")
            need(line.rpartition(" ")[0] not in values, f"a value is told twice: {line!r}")
            values[line.rpartition(" ")[0]] = float(found[3])
    need(all((kind == "counter") == name.endswith("_total") for name, kind in kinds.items()), f"a counter ends in _total: {kinds}")
    return values


def metrics(server, path, bearer):
    """The metrics of a server, which promtool takes too, where it is there."""
    status, fields, text = server.ask_as_text("GET", path, bearer=bearer)
    need((status, fields["content-type"]) == (200, "text/plain; version=0.0.4"), f"the metrics are answered {status} {fields}")
    if shutil.which("promtool"):
        ran = subprocess.run(["promtool", "check", "metrics"], input=text, capture_output=True, timeout=60, check=False)
        need(ran.returncode == 0, f"promtool says {ran.stdout + ran.stderr!r}")
    return read(text.decode("ascii"))


def grown(before, after):
    """What grew, and by how much."""
    return {name: value - before.get(name, 0) for name, value in after.items() if value != before.get(name, 0) and "_total" in name}


def requests(method, route, status):
    return f'signals_requests_total{{method="{method}",route="{route}",status="{status}"}}'


def links_ended(before, after):
    return sum(grew for name, grew in grown(before, after).items() if name.startswith("signals_links_ended_total"))


def counts_requests(server):
    """Requests are counted by route and status, in which nothing stands that a client made up."""
    before = metrics(server, "/operator/metrics", "operator")
    for method, path, bearer in [("GET", "/ssf/stream", "client"), ("GET", "/ssf/stream", "nobody"), ("GET", "/made/up\"", None), ("BREW", "/ssf/stream", None)]:
        server.ask_as_text(method, path, bearer=bearer)
    server.ask("POST", "/poll/made-up-1", {"maxEvents": 0, "returnImmediately": True})
    after = metrics(server, "/operator/metrics", "operator")
    asked = {
        requests("GET", "/ssf/stream", 200): 1, requests("GET", "/ssf/stream", 401): 1, requests("other", "other", 404): 1,
        requests("other", "other", 405): 1, requests("POST", "/poll/", 404): 1, requests("GET", "/operator/metrics", 200): 1,
    }
    got = {name: grew for name, grew in grown(before, after).items() if name.startswith("signals_requests")}
    need(got == asked, f"requests are counted like this: {got}")
    need(0 <= after["signals_uptime_seconds"] - before["signals_uptime_seconds"] <= 30, "the uptime doesn't grow by seconds")
    # what a link did is counted once it has ended, which may be a moment after its answer
    until(lambda: metrics(server, "/operator/metrics", "operator")["signals_links_open"] == 1, "links that ended stay open")
    last = metrics(server, "/operator/metrics", "operator")
    asked = sum(grew for name, grew in grown(before, last).items() if name.startswith("signals_requests_total"))
    until(lambda: links_ended(before, metrics(server, "/operator/metrics", "operator")) >= asked, f"{asked} requests were made, each on a link of its own, and fewer links ended")


def counts_pushes(server, receiver):
    """Pushes are counted by outcome at both ends, and a stream that is late is told with when it is tried again."""
    url = f"http://127.0.0.1:{receiver.port}/push"
    delivery = {"method": "urn:ietf:rfc:8935", "endpoint_url": url, "authorization_header": "Bearer change-me-push"}
    need(server.ask("POST", "/ssf/stream", {"delivery": delivery})[0] == 201, "a push stream isn't made")
    before, there = metrics(server, "/operator/metrics", "operator"), metrics(receiver, "/metrics", "reader")
    published(server, 1)
    until(lambda: grown(there, metrics(receiver, "/metrics", "reader")).get("signals_tokens_total") == 1, "a pushed token isn't counted")
    nobody, busy = push_stream(server, f"http://127.0.0.1:{free_port()}/events"), push_stream(server, Endpoint((503, b"")).url())
    published(server, 2)
    late = f'signals_push_late_attempts{{stream="{nobody}"}}'
    until(lambda: all(metrics(server, "/operator/metrics", "operator").get(late.replace(nobody, name), 0) >= 1 for name in (nobody, busy)), "no stream is late")
    after = metrics(server, "/operator/metrics", "operator")
    due = after[late.replace("late_attempts", "due_timestamp_seconds")]
    need(0 < due - time.time() <= 31, f"a late stream is tried again in {due - time.time()} seconds")
    pushes = {name: grew for name, grew in grown(before, after).items() if name.startswith("signals_pushes_total")}
    need(pushes['signals_pushes_total{outcome="accepted"}'] == 2 and pushes['signals_pushes_total{outcome="kept"}'] >= 1, f"pushes are counted like this: {pushes}")
    need(pushes['signals_pushes_total{outcome="unanswered"}'] >= 1, f"pushes that nobody answered are counted like this: {pushes}")
    need(after["signals_journal_records"] > before["signals_journal_records"], "records are not counted")


def counts_tokens(receiver):
    """A receiver counts what was taken, taken before, and refused, by its code."""
    before = metrics(receiver, "/metrics", "reader")
    one = token("metrics-1", {"format": "opaque", "id": "m-1"})
    told = [push(receiver, text) for text in (one, one, b"none")]
    need(told[:2] == ["202", "202"] and told[2].startswith("invalid_request "), f"pushes are answered {told}")
    until(lambda: grown(before, metrics(receiver, "/metrics", "reader")).get('signals_pushes_total{outcome="refused"}') == 1, "a refused push isn't counted")
    got = grown(before, metrics(receiver, "/metrics", "reader"))
    told = {name: grew for name, grew in got.items() if name.startswith(("signals_pushes", "signals_reported", "signals_tokens"))}
    need(told == {
        "signals_tokens_total": 1, 'signals_pushes_total{outcome="accepted"}': 1, 'signals_pushes_total{outcome="seen"}': 1,
        'signals_pushes_total{outcome="refused"}': 1, 'signals_reported_total{code="invalid_request"}': 1,
    }, f"tokens are counted like this: {told}")
    rows = len(receiver.ask("GET", "/sessions", bearer="reader")[1])
    need(metrics(receiver, "/metrics", "reader")["signals_session_rows"] == rows, "the rows are counted wrongly")


def counts_bytes(server, receiver):
    """The bytes of a store are those of its first file, in which nothing stands after the last gate here."""
    for served, path, bearer in (server, "/operator/metrics", "operator"), (receiver, "/metrics", "reader"):
        until(lambda: metrics(served, path, bearer)["signals_store_bytes"] == os.path.getsize(f"{served.store}.a"), "the bytes of a store are told wrongly")


def bearers(server, receiver):
    """Who may not read them."""
    said = [server.ask_as_text("GET", "/operator/metrics", bearer=bearer)[0] for bearer in ("client", "reader", None)]
    said += [receiver.ask_as_text("GET", "/metrics", bearer=bearer)[0] for bearer in ("push", "operator", None)]
    said += [server.ask_as_text("GET", "/metrics", bearer="operator")[0], receiver.ask_as_text("POST", "/metrics", b"", "reader")[0]]
    need(said == [401] * 6 + [404, 405], f"metrics are answered {said}")


def main():
    program = built_program()
    if not program:
        return
    with tempfile.TemporaryDirectory() as room:
        server, receiver = Server(program, room), Receiver(program, room)
        for served, kind in (server, "tx"), (receiver, "rx"):
            need(served.run("init", kind, served.store, str(uuid.uuid4())) == (0, ""), "a store isn't made")
            served.start()
        counts_bytes(server, receiver)
        counts_requests(server)
        counts_tokens(receiver)
        counts_pushes(server, receiver)
        counts_bytes(server, receiver)
        bearers(server, receiver)
        names = len(metrics(server, "/operator/metrics", "operator")) + len(metrics(receiver, "/metrics", "reader"))
        server.kill()
        receiver.kill()
        need(not any("change-me" in line for line in server.lines() + receiver.lines()), "a line has a bearer")
    read_by = "promtool and here" if shutil.which("promtool") else "here"
    print(f"{names} values of both servers' metrics, read {read_by}: requests, links, pushes and tokens are counted")


if __name__ == "__main__":
    main()
