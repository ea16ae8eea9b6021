"""Captures what curl, wrk, nginx and Python's http.client send and answer, as tools/cases/http_captured.json.

    python3 tools/cases/capture_http.py

Each client is pointed at a socket here that keeps the bytes it gets and answers with a short response; each server is
sent a short request. Tools that aren't installed are passed over. Ports and dates differ from run to run, so the file is
kept as data and made again by hand.
"""

import base64
import http.client
import http.server
import json
import pathlib
import shutil
import socket
import subprocess
import tempfile
import threading
import time

OUT = pathlib.Path(__file__).with_name("http_captured.json")
BODY = b'{"sub_id":{"format":"opaque","id":"s-77"}}'
ANSWER = b"HTTP/1.1 202 Accepted\r\ncontent-length: 0\r\nconnection: close\r\n\r\n"
PUSH = ["-H", "Content-Type: application/secevent+jwt", "-H", "Authorization: Bearer h480djs93hd8"]


def taken(send, answer=ANSWER, wait=0.6):
    """The bytes that a client sends on the first link on which it sends some: wrk tries one before."""
    listener = socket.create_server(("127.0.0.1", 0))
    found = []

    def serve():
        data = b""
        while not data:
            link, _ = listener.accept()
            link.settimeout(wait)
            data = received(link)
            if data:
                link.sendall(answer)
            link.close()
        found.append(data)

    thread = threading.Thread(target=serve)
    thread.start()
    send(listener.getsockname()[1])
    thread.join()
    listener.close()
    return found[0]


def received(link):
    data = b""
    try:
        while piece := link.recv(65536):
            data += piece
            if b"100-continue" in data and data.endswith(b"\r\n\r\n"):
                link.sendall(b"HTTP/1.1 100 Continue\r\n\r\n")
    except TimeoutError:
        pass
    return data


def command(*words, data=None):
    return lambda port: subprocess.run([word.replace("PORT", str(port)) for word in words], input=data, capture_output=True, timeout=20)


def by_python(method, path, body=None, headers=None, chunked=False):
    def send(port):
        link = http.client.HTTPConnection("127.0.0.1", port, timeout=5)
        parts = iter([BODY[:10], BODY[10:]]) if chunked else body
        link.request(method, path, parts, headers or {}, encode_chunked=chunked)
        link.getresponse().read()

    return send


def answered(port, request):
    """The bytes that a server answers."""
    with socket.create_connection(("127.0.0.1", port), timeout=5) as link:
        link.sendall(request)
        link.settimeout(1)
        data = b""
        try:
            while piece := link.recv(65536):
                data += piece
        except TimeoutError:
            pass
    return data


def requests():
    url = "http://127.0.0.1:PORT"
    if shutil.which("curl"):
        yield "curl GET", taken(command("curl", "-s", url + "/ssf/stream?stream_id=acme-1"))
        yield "curl POST", taken(command("curl", "-s", "-d", BODY.decode(), *PUSH, url + "/push"))
        chunked = ["-H", "Transfer-Encoding: chunked", "--data-binary", "@-"]
        yield "curl chunked", taken(command("curl", "-s", *chunked, *PUSH, url + "/push", data=BODY))
        yield "curl HTTP/1.0", taken(command("curl", "-s", "-0", "-d", "a=b", url + "/"))
        yield "curl PUT with expect", taken(command("curl", "-s", "-T", "-", "-H", "Expect: 100-continue", url + "/x", data=BODY))
        yield "curl DELETE", taken(command("curl", "-s", "-X", "DELETE", url + "/ssf/stream?stream_id=acme%2D1"))
    if shutil.which("wrk"):
        yield "wrk GET", taken(command("wrk", "-c", "1", "-t", "1", "-d", "1s", url + "/sessions"))
    yield "http.client GET", taken(by_python("GET", "/poll/acme-1"))
    yield "http.client POST", taken(by_python("POST", "/push", BODY, {"Authorization": "Bearer x"}))
    yield "http.client chunked", taken(by_python("POST", "/push", chunked=True, headers={"Transfer-Encoding": "chunked"}))


def nginx(work, upstream):
    """A server that answers from a folder and hands /up on to a place."""
    work.chmod(0o755)
    config = work / "nginx.conf"
    (work / "index.html").write_text("hello\n")
    config.write_text(
        f"daemon off; pid {work}/pid; error_log {work}/errors; events {{}}\n"
        f"http {{ access_log off; client_body_temp_path {work}/b; proxy_temp_path {work}/p; fastcgi_temp_path {work}/f;"
        f" uwsgi_temp_path {work}/u; scgi_temp_path {work}/s; gzip on; gzip_min_length 1; gzip_types text/html;\n"
        f"server {{ listen 127.0.0.1:18711; root {work};\n"
        f" location /up {{ proxy_pass http://127.0.0.1:{upstream}; }}\n"
        f" location /up11 {{ proxy_pass http://127.0.0.1:{upstream}; proxy_http_version 1.1; proxy_request_buffering off; }} }} }}\n"
    )
    process = subprocess.Popen(["nginx", "-p", str(work), "-c", str(config)], stdout=subprocess.DEVNULL, stderr=subprocess.DEVNULL)
    time.sleep(1)
    return process


def by_nginx():
    post = b"POST /up HTTP/1.1\r\nHost: a\r\nContent-Length: 42\r\n\r\n" + BODY
    chunked = b"POST /up11 HTTP/1.1\r\nHost: a\r\nTransfer-Encoding: chunked\r\n\r\n2a\r\n" + BODY + b"\r\n0\r\n\r\n"
    for name, sent in (("nginx proxied POST", post), ("nginx proxied chunked", chunked)):

        def send(port, sent=sent):
            with tempfile.TemporaryDirectory() as folder:
                process = nginx(pathlib.Path(folder), port)
                answered(18711, sent)
                process.terminate()
                process.wait()

        yield "request", name, taken(send)
    with tempfile.TemporaryDirectory() as folder:
        process = nginx(pathlib.Path(folder), 9)
        yield "response", "nginx 200", answered(18711, b"GET / HTTP/1.1\r\nHost: a\r\nConnection: close\r\n\r\n")
        zipped = b"GET / HTTP/1.1\r\nHost: a\r\nAccept-Encoding: gzip\r\nConnection: close\r\n\r\n"
        yield "response", "nginx 200 chunked", answered(18711, zipped)
        yield "response", "nginx 404", answered(18711, b"GET /x HTTP/1.1\r\nHost: a\r\nConnection: close\r\n\r\n")
        yield "response", "nginx 400", answered(18711, b"GET / HTTP/1.1\r\n\r\n")
        process.terminate()
        process.wait()


def by_python_server():
    with tempfile.TemporaryDirectory() as folder:
        (pathlib.Path(folder) / "a.txt").write_text("hello\n")
        handler = lambda *rest: http.server.SimpleHTTPRequestHandler(*rest, directory=folder)
        server = http.server.ThreadingHTTPServer(("127.0.0.1", 0), handler)
        threading.Thread(target=server.serve_forever, daemon=True).start()
        port = server.server_address[1]
        yield "http.server 200", answered(port, b"GET /a.txt HTTP/1.1\r\nHost: a\r\n\r\n")
        yield "http.server 404", answered(port, b"GET /b HTTP/1.1\r\nHost: a\r\n\r\n")
        server.shutdown()


def main():
    found = [("request", name, data) for name, data in requests()]
    if shutil.which("nginx"):
        found += by_nginx()
    found += [("response", name, data) for name, data in by_python_server()]
    rows = [{"kind": kind, "name": name, "bytes": base64.b64encode(data).decode()} for kind, name, data in found if data]
    OUT.write_text(json.dumps(rows, indent=1) + "\n")
    print(f"{len(rows)} messages in {OUT.name}")


if __name__ == "__main__":
    main()
