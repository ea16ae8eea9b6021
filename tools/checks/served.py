"""The program as it serves a store, for the checks and the measures of both servers."""
import atexit
import http.client
import json
import os
import signal
import socket
import subprocess
import sys
import time

from crates.crate_list import TOP


def fail(why):
    raise SystemExit(f"{os.path.basename(sys.argv[0])}: {why}")


def need(is_so, why):
    if not is_so:
        fail(why)


def free_port():
    with socket.socket() as found:
        found.bind(("127.0.0.1", 0))
        return found.getsockname()[1]


def is_free(port):
    """Whether a server could listen at this port now, as one does that has the option SO_REUSEADDR."""
    with socket.socket() as tried:
        tried.setsockopt(socket.SOL_SOCKET, socket.SO_REUSEADDR, 1)
        try:
            tried.bind(("127.0.0.1", port))
            tried.listen()
            return True
        except OSError:
            return False


def program_path():
    """The program that the first word or else SIGNALS_PROGRAM names, or the proved one, where that is built here."""
    named = sys.argv[1] if len(sys.argv) > 1 else os.environ.get("SIGNALS_PROGRAM")
    program = os.path.abspath(named) if named else os.path.join(TOP, "crates/signals/out/signals")
    if os.access(program, os.X_OK):
        return program
    print(f"passed over: no program is built at {os.path.relpath(program, TOP)}")
    return None


def built_program():
    """The program, where a socket can be opened here too."""
    program = program_path()
    try:
        free_port()
    except OSError:
        print("passed over: no socket can be opened here")
        return None
    return program


class Served:
    """One of the two servers, by the settings of an example, at a port of its own and over a store in a folder."""

    def __init__(self, program, room, word, example, store):
        self.program, self.room, self.word, self.port, self.running = program, room, word, free_port(), None
        self.settings, self.store, self.bearers = os.path.join(room, example), os.path.join(room, store), {}
        with open(os.path.join(TOP, "examples", example), encoding="utf-8") as file:
            self.said = json.load(file)
        self.said["listen"] = f"127.0.0.1:{self.port}"
        self.write(self.settings, self.said)

    @staticmethod
    def write(path, said):
        with open(path, "w", encoding="utf-8") as file:
            json.dump(said, file)

    def run(self, *words):
        ran = subprocess.run([self.program, *words], capture_output=True, timeout=60, check=False)
        return ran.returncode, ran.stdout.decode()

    def start(self, before=None, wait=10):
        """Starts it, and waits at most so many seconds until it has loaded its store, as its first line says.

        It listens before. With a limit on what it may write that line may be missing, and listening is enough.
        """
        words, begun = [self.program, self.word, self.settings, self.store, "1000000"], self.begun()
        with open(f"{self.store}.lines", "ab") as lines:
            self.running = subprocess.Popen(words, stdout=subprocess.PIPE, stderr=lines, preexec_fn=before)
        # where a check fails, no server is left behind
        atexit.register(self.running.kill)
        for _ in range(wait * 50):
            if self.running.poll() is not None:
                fail(f"the server ended with {self.running.returncode}: {self.running.communicate()[0]} {self.lines()}")
            try:
                if before or self.begun() > begun:
                    socket.create_connection(("127.0.0.1", self.port), 1).close()
                    return
            except OSError:
                pass
            time.sleep(0.02)
        fail("the server doesn't listen")

    def begun(self):
        """How many of its runs said that they serve."""
        if not os.path.exists(f"{self.store}.lines"):
            return 0
        return sum(line.split(" ")[1:2] in (["serving"], ["receiving"]) for line in self.lines())

    def lines(self):
        """The lines on standard error of all its runs."""
        with open(f"{self.store}.lines", encoding="ascii") as file:
            return file.read().splitlines()

    def ended(self, seconds):
        """The status and the output of a server that ends by itself within so many seconds."""
        try:
            out, _ = self.running.communicate(timeout=seconds)
        except subprocess.TimeoutExpired:
            fail(f"the server stands after {seconds} seconds")
        return self.running.returncode, out.decode()

    def kill(self):
        self.running.send_signal(signal.SIGKILL)
        out, _ = self.running.communicate()
        need(out == b"", f"the server wrote to its output: {out!r}")

    def ask_as_text(self, method, path, body=None, bearer="client", headers=None):
        """The status, the fields and the bytes of an answer; a bearer is named, or stands for itself."""
        link = http.client.HTTPConnection("127.0.0.1", self.port, timeout=60)
        bearer = self.bearers.get(bearer, bearer)
        fields = {"authorization": f"Bearer {bearer}"} if bearer else {}
        if body is not None:
            fields["content-type"] = "application/json"
        link.request(method, path, body, {**fields, **(headers or {})})
        response = link.getresponse()
        text = response.read()
        link.close()
        kept = response.getheader("cache-control")
        need(kept == (None if path.startswith("/.well-known/") and response.status == 200 else "no-store"), f"caches are told {kept} of {method} {path}")
        return response.status, dict(response.getheaders()), text

    def ask(self, method, path, body=None, bearer="client"):
        """The status of an answer, and what its JSON says."""
        status, _, text = self.ask_as_text(method, path, None if body is None else json.dumps(body), bearer)
        return status, json.loads(text) if text else None
