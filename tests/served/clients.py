"""Real clients: `curl`, and Python's `http.client`."""

import http.client
import subprocess

from served.server import compare


def by_curl(server, *words, given=b""):
    """The status, the type and the body that `curl` gives. The last word is the target."""
    *options, target = words
    url = f"http://127.0.0.1:{server.opened()}{target}"
    line = ["curl", "-sS", "--noproxy", "*", "--max-time", "60", "-w", "\n%{http_code} %{content_type}", *options, url]
    done = subprocess.run(line, input=given, capture_output=True, timeout=90)
    compare(f"curl {words}: status, errors", (done.returncode, done.stderr), (0, b""))
    body, _, said = done.stdout.rpartition(b"\n")
    status, _, kind = said.decode().partition(" ")
    return int(status), kind, body


def by_python(server, method, target, body=None, fields=()):
    """The status, the type and the body that Python's client gives."""
    client = http.client.HTTPConnection("127.0.0.1", server.opened(), timeout=60)
    client.request(method, target, body, dict(fields))
    reply = client.getresponse()
    found = reply.status, reply.getheader("Content-Type"), reply.read()
    client.close()
    return found
