"""What a node answers over HTTP, as it is read here."""

import html.parser
import http.client
import re
import shutil
import socket
import tempfile

from waiting import LIMIT, expect, expect_that

NAME = re.compile(r"[a-zA-Z_:][a-zA-Z0-9_:]*")
LABEL = re.compile(r'([a-zA-Z_][a-zA-Z0-9_]*)="((?:[^"\\\n]|\\["\\n])*)"')
CHROMIUM = shutil.which("chromium") or shutil.which("chromium-browser")


def get(port, path, method="GET"):
    """The answer to a request: its status, its headers, and its body."""
    connection = http.client.HTTPConnection("127.0.0.1", port, timeout=LIMIT)
    try:
        connection.request(method, path)
        answer = connection.getresponse()
        return (
            answer.status,
            {name.lower(): value for name, value in answer.getheaders()},
            answer.read().decode("utf-8"),
        )
    finally:
        connection.close()


def page(port, path):
    status, _, body = get(port, path)
    expect(f"the status of {path}", 200, status)
    return body


def metrics(port):
    """All samples, by name and labels, of a text that keeps to Prometheus's text format,
    version 0.0.4."""
    status, headers, body = get(port, "/metrics")
    expect("the status of /metrics", 200, status)
    expect("its kind", "text/plain; version=0.0.4; charset=utf-8", headers["content-type"])
    expect_that(body.endswith("\n"), "a line feed at the end", body[-20:])
    samples, kinds, helped, family = {}, {}, set(), None
    for line in body[:-1].split("\n"):
        if line.startswith("# HELP "):
            name = line.split(" ", 3)[2]
            expect_that(NAME.fullmatch(name) and name not in helped, "one help of a name", line)
            helped.add(name)
            family = name
        elif line.startswith("# TYPE "):
            _, _, name, kind = line.split(" ")
            expect_that(
                name == family and name not in kinds and kind in ("gauge", "counter"),
                "one type behind its help",
                line,
            )
            kinds[name] = kind
        else:
            name, labels, value = sample(line)
            expect_that(name == family and name in kinds, "a sample behind its type", line)
            expect_that((name, labels) not in samples, "each sample once", line)
            expect_that(kinds[name] == "gauge" or name.endswith("_total"), "a counter's name", line)
            samples[name, labels] = value
    return samples


def sample(line):
    """A sample in its parts."""
    found = re.fullmatch(r"([^ {]+)(?:\{(.*)\})? ([0-9]+)", line)
    expect_that(found and NAME.fullmatch(found[1]), "a sample", line)
    labels, rest = [], found[2] or ""
    while rest:
        label = LABEL.match(rest)
        expect_that(label, "a label", line)
        labels.append(
            (label[1], re.sub(r"\\(.)", lambda two: "\n" if two[1] == "n" else two[1], label[2]))
        )
        rest = rest[label.end() :]
        expect_that(rest == "" or rest.startswith(","), "a comma between labels", line)
        rest = rest[1:]
    return found[1], tuple(labels), int(found[3])


class Seen(html.parser.HTMLParser):
    """The tags of a page, and its text."""

    def __init__(self, body):
        super().__init__()
        self.tags = set()
        self.texts = []
        self.feed(body)
        self.close()

    def handle_starttag(self, tag, attrs):
        self.tags.add(tag)

    def handle_data(self, data):
        self.texts.append(data)


def http_node(field, name, *options, **rest):
    return field.node(name, *options, "--http", "127.0.0.1:0", **rest)


def status_for(port, rest):
    """The status of `/healthz` for a request that goes on so."""
    return int(said_by_http(port, b"GET /healthz" + rest + b"\r\n\r\n").split(b" ", 2)[1])


def said_by_http(port, words):
    """All that is answered to these bytes."""
    with socket.create_connection(("127.0.0.1", port)) as stranger:
        stranger.settimeout(LIMIT)
        came = b""
        try:
            stranger.sendall(words)
            while piece := stranger.recv(4096):
                came += piece
        except ConnectionError:
            pass
        return came


class Folder:
    """A folder of its own for a browser."""

    def __init__(self):
        self.path = tempfile.mkdtemp(prefix="browser.")

    def close(self):
        shutil.rmtree(self.path, ignore_errors=True)
