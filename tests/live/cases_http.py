"""A node over HTTP: metrics, health, status and the page."""

import json
import os
import re
import socket
import subprocess
import time

from field import case
from node import asked, await_members, await_nodes, member, new_pid, size, start
from peer import connect, Peer
from waiting import LIMIT, expect, expect_that, until
from web import CHROMIUM, Folder, Seen, get, http_node, metrics, page, said_by_http, status_for

ODD_GROUPS = (
    "<script>alert(1)</script>",
    "a&amp;b",
    '"quoted"',
    "'single'",
    "back\\slash",
    "</td></table>",
)
# What `Host` may say at a loopback address, and what it may not.
OWN_HOSTS = (
    b"localhost",
    b"LocalHost:80",
    b"127.0.0.1",
    b"127.0.0.1:9464",
    b"[::1]",
    b"[::1]:80",
    b"10.1.2.3:80",
)
STRANGE_HOSTS = (
    b"h",
    b"rebound.example:80",
    b"localhost.example",
    b"127.0.0.1.example:80",
    b"h:127",
    b"localhost:x",
    b"",
)
# Samples by name and labels.
WAITING = "pg_link_waiting_frames", (("peer", "b@h"),)
DISCONNECTED = "pg_link_downs_total", (("reason", "disconnected"),)


@case
def metrics_of_a_node(field):
    """`/metrics` tells links, clients, entries, rows by scope, what waits by link, what was refused
    by which rule, lines told, new lives and memory, in Prometheus's format."""
    a = http_node(
        field, "a@h", "--creation", "7", "--entries", "180", "--last-entry", "200", "--clients", "9"
    )
    b = field.node("b@h", dial=[a])
    await_nodes(a, ["b@h"])
    client = field.control(a)
    pid = member(client)
    asked(client, f"join pg g {pid} {pid}")
    start(b)
    other = member(b)
    await_members(client, [pid, pid, pid, other])
    asked(client, "start pg", "refused 22 ScopeRunning")
    client.ask("monitor_scope pg")
    asked(client, f"leave pg g {pid}")
    client.told(r"! leave .*")
    seen = until(
        "what was told, and taken by the peer",
        lambda: metrics(a.http_port),
        lambda came: came["pg_told_lines_total", ()] >= 1 and came.get(WAITING) == 0,
    )
    for key, value in known_metrics(field.program, a).items():
        expect(f"the metric {key}", value, seen.get(key))
    expect_that(
        10**6 < seen["pg_node_resident_bytes", ()] < 10**9,
        "bytes of memory",
        seen["pg_node_resident_bytes", ()],
    )
    status = a.ask("status")
    expect_that(
        re.search(r" refused=1 told=\d+ bytes=\d+$", status), "what status says of them", status
    )
    expect("links that ended", 0, seen[DISCONNECTED])
    metrics_of_an_ended_link(a, client)
    metrics_of_a_new_life(a)
    metrics_of_a_dial(field)


def known_metrics(program, node):
    """The metrics of a node with a link, a client, three rows, and a line that was refused."""
    version = subprocess.run(
        [program, "--version"], capture_output=True, text=True, check=True
    ).stdout.split()[1]
    return {
        ("pg_node_info", (("name", "a@h"), ("version", version))): 1,
        ("pg_node_creation", ()): 7,
        ("pg_links", ()): 1,
        ("pg_links_max", ()): 64,
        ("pg_clients", ()): 1,
        ("pg_clients_max", ()): 9,
        ("pg_entries", ()): size(node),
        ("pg_entries_kept", ()): size(node),
        ("pg_entries_kept_max", ()): 180,
        ("pg_entries_lost_total", ()): 0,
        ("pg_entries_archived_total", ()): 0,
        ("pg_node_new_lives_total", ()): 0,
        ("pg_node_draining", ()): 0,
        ("pg_rows", (("scope", "pg"),)): 3,
        WAITING: 0,
        ("pg_refused_total", (("rule", "ScopeRunning"),)): 1,
    }


def metrics_of_an_ended_link(node, client):
    """That a link that is ended counts among those that were disconnected."""
    asked(client, "disconnect b@h")
    until(
        "a link that was ended",
        lambda: metrics(node.http_port),
        lambda came: came[DISCONNECTED] == 1,
    )


def metrics_of_a_new_life(node):
    """That a new life is counted, and begins without rows."""
    while not node.untold("! restarted .*"):
        node.ask("spawn")
    seen = until(
        "a new life",
        lambda: metrics(node.http_port),
        lambda came: came["pg_node_new_lives_total", ()] == 1,
    )
    expect("rows of a new life", 0, seen["pg_rows", (("scope", "pg"),)])


def metrics_of_a_dial(field):
    """That dials of a peer that is away are counted, and that it isn't up."""
    dialler = http_node(field, "d@h", "--dial", "x@h=127.0.0.1:1")
    until(
        "a second dial",
        lambda: metrics(dialler.http_port)["pg_dials_total", (("peer", "x@h"),)],
        lambda came: came >= 2,
    )
    expect("whether it is up", 0, metrics(dialler.http_port)["pg_dial_up", (("peer", "x@h"),)])


@case
def texts_of_others_are_text(field):
    """What others say is shown in the page, and nothing of it is read as markup; in labels and JSON
    it stands as it is."""
    a = http_node(field, "a@h")
    for odd in ODD_GROUPS:
        member(a, odd)
    scope = 'quote"back\\slash<b>'
    start(a, scope)
    body = page(a.http_port, "/")
    seen = Seen(body)
    expect_that(
        not seen.tags & {"script", "b", "img", "iframe", "link"}, "no tag of another's", seen.tags
    )
    expect_that(
        'http-equiv="refresh"' in body and "src=" not in body and "href=" not in body,
        "a page of one file",
        body[:400],
    )
    for odd in (*ODD_GROUPS, scope):
        expect_that(odd in seen.texts, f"{odd} as a text", seen.texts)
    expect("rows of the odd scope", 0, metrics(a.http_port)["pg_rows", (("scope", scope),)])
    value = json.loads(page(a.http_port, "/status.json"))
    expect(
        "scopes",
        {"pg": len(ODD_GROUPS), scope: 0},
        {one["scope"]: one["rows"] for one in value["scopes"]},
    )


@case
def page_for_people(field):
    """`/` shows links, dials with their last errors, scopes with groups and counts, and the last 50
    lines of the log; no more than 200 groups."""
    a = http_node(field, "a@h", "--dial", "x@h=127.0.0.1:1")
    b = field.node("b@h", "--creation", "5", dial=[a])
    await_nodes(a, ["b@h"])
    pid = member(a)
    asked(a, f"join pg g {pid}")
    for number in range(250):
        asked(a, f"join pg h{number:03} {pid}")
    for number in range(60):
        asked(a, f"dial n{number}@h=127.0.0.1:1")
    texts = Seen(page(a.http_port, "/")).texts
    for text in (
        "a@h",
        "b@h",
        "5",
        "visible",
        "x@h",
        "127.0.0.1:1",
        "refused",
        "pg",
        "all 251",
        "252",
        "g",
        "2",
        "and 51 more",
    ):
        expect_that(text in texts, f"{text} in the page", texts[:60])
    log = [text for text in texts if "info dial target=" in text]
    expect_that(len(log) >= 1 and "n59@h" in log[-1], "the last line of the log", log[-1:])
    lines = [
        line
        for text in texts
        for line in text.split("\n")
        if " target=" in line or " peer=" in line
    ]
    expect_that(40 <= len(lines) <= 50, "the last 50 lines", len(lines))
    b.quit()


@case
def only_reads_by_http(field):
    """GET and HEAD alone are taken; unknown paths, long requests, long bodies and what is no HTTP
    are refused by name; the node goes on."""
    a = http_node(field, "a@h")
    for method in ("POST", "PUT", "DELETE", "OPTIONS"):
        status, headers, _ = get(a.http_port, "/", method)
        expect(f"the answer to {method}", (405, "GET, HEAD"), (status, headers.get("allow")))
    for path in ("/status", "/metrics/", "//", "/..", "/index.html"):
        expect(f"the status of {path}", 404, get(a.http_port, path)[0])
    expect("the status of a query", 200, get(a.http_port, "/healthz?now")[0])
    status, headers, body = get(a.http_port, "/", "HEAD")
    expect("a HEAD", (200, ""), (status, body))
    expect_that(int(headers["content-length"]) > 500, "the length of the page", headers)
    expect_that(
        "default-src 'none'" in headers["content-security-policy"],
        "nothing else is loaded or run",
        headers,
    )
    for words, answer in (
        (b"GET /" + b"x" * 70_000 + b" HTTP/1.1\r\n\r\n", b"414 "),
        (b"GET / HTTP/1.1\r\nHost: h\r\nA: " + b"x" * 70_000 + b"\r\n\r\n", b"431 "),
        (b"GET / HTTP/1.1\r\nHost: h\r\nContent-Length: 9999\r\n\r\n", b"413 "),
        (b"\x00\x01?\r\n\r\n", b"400 "),
        (b"GET / HTTP/1.1\r\nHost: <b>\r\n\r\n", b"400 "),
    ):
        expect_that(
            said_by_http(a.http_port, words).startswith(b"HTTP/1.1 " + answer),
            f"{answer} to {words[:20]}",
            "another",
        )
    expect("health", (200, "ok\n"), get(a.http_port, "/healthz")[::2])


@case
def hosts_of_this_machine(field):
    """At a loopback address a request is told 421 whose `Host` is neither an address nor
    `localhost`, so that no page of another place reads the node by a name that was made to mean
    this machine; at other addresses it is answered."""
    a = http_node(field, "a@h")
    for host in OWN_HOSTS:
        expect(
            f"the status for {host}", 200, status_for(a.http_port, b" HTTP/1.1\r\nHost: " + host)
        )
    for host in STRANGE_HOSTS:
        expect_that(
            status_for(a.http_port, b" HTTP/1.1\r\nHost: " + host) in (400, 421),
            f"no answer for {host}",
            200,
        )
    came = said_by_http(a.http_port, b"GET /metrics HTTP/1.1\r\nHost: rebound.example\r\n\r\n")
    expect_that(came.startswith(b"HTTP/1.1 421 "), "a status of its own", came[:40])
    expect(
        "what it is told",
        b"the Host is neither an address nor localhost\n",
        came.split(b"\r\n\r\n")[-1],
    )
    expect("the status without a host", 200, status_for(a.http_port, b" HTTP/1.0"))
    b = field.start("b@h", "--http", "0.0.0.0:0", "--http-anywhere", port=None)
    ports = [re.search(r"^http .*:(\d+)$", b.next_answer("a first line")) for _ in range(2)]
    port = next(int(found[1]) for found in ports if found)
    expect("the status at another address", 200, status_for(port, b" HTTP/1.1\r\nHost: h"))


@case
def slow_reader_of_the_page(field):
    """Who asks for the page and doesn't read it holds up neither lines nor the end of the node; and
    has ten seconds."""
    a = http_node(field, "a@h")
    pid = member(a)
    for number in range(150):
        asked(a, f"join pg {'g' * 250}{number:03} {pid}")
    slow = []
    for _ in range(8):
        stranger = field.keep(socket.socket())
        stranger.setsockopt(socket.SOL_SOCKET, socket.SO_RCVBUF, 1024)
        stranger.connect(("127.0.0.1", a.http_port))
        stranger.sendall(b"GET / HTTP/1.1\r\nHost: localhost\r\n\r\n" * 3)
        slow.append(stranger)
    began = time.monotonic()
    for _ in range(200):
        asked(a, f"join pg x {pid}")
        asked(a, f"leave pg x {pid}")
    expect_that(time.monotonic() - began < 9, "400 calls meanwhile", time.monotonic() - began)
    expect("health meanwhile", 200, get(a.http_port, "/healthz")[0])
    began = time.monotonic()
    a.quit()
    expect_that(time.monotonic() - began < 9, "an end at once", time.monotonic() - began)


@case
def many_who_look_on(field):
    """Sixteen connections are served at once; a further one is told that there is no room, and one
    is served again once one of the sixteen has ended, ten seconds after it began at the latest."""
    a = http_node(field, "a@h")
    idle = []
    for _ in range(16):
        idle.append(field.keep(socket.create_connection(("127.0.0.1", a.http_port))))
    expect_that(
        until(
            "a refusal",
            lambda: said_by_http(a.http_port, b"GET / HTTP/1.1\r\nHost: localhost\r\n\r\n"),
        ).startswith(b"HTTP/1.1 503 "),
        "no room",
        "some",
    )
    expect_that(a.ask("size").startswith("size "), "an answer meanwhile", "none")
    idle.pop().close()
    until("room", lambda: get(a.http_port, "/healthz")[0], lambda status: status == 200, limit=5)
    for stranger in idle:
        stranger.settimeout(LIMIT)
        expect("an end of one that says nothing", b"", stranger.recv(1))


@case
def health_while_draining(field):
    """`/healthz` is 503 while the node drains, and the page says so; and a link that comes
    then isn't taken."""
    audit = os.path.join(field.folder, "audit")
    a = http_node(field, "a@h", "--audit", audit)
    client, watcher = field.control(a), field.control(a)
    for _ in range(4_000):
        new_pid(client)
    late = []
    client.send("drain")
    watcher.await_end()
    expect("health while it drains", (503, "draining\n"), get(a.http_port, "/healthz")[::2])
    expect_that("It drains" in page(a.http_port, "/"), "the page that says so", "none")
    late.append(Peer(connect(a.port), "late@h"))
    late[0].send(late[0].name_frame())
    expect("the answer to drain", "ok", client.next_answer("an answer to drain"))
    late[0].await_end()
    expect("its status", 0, a.status())
    with open(audit, encoding="ascii") as file:
        opened = [line for line in file if " Opened " in line]
    expect("links that were taken", [], opened)


@case
def nodes_ascend(field):
    """`nodes` answers in ascending order, whatever order the links came up in."""
    a = field.node("a@h")
    for name in ("d@h", "b@h", "e@h", "c@h"):
        field.node(name, dial=[a])
        until(f"{name} up", lambda: name in a.ask("nodes"))
    asked(a, "nodes", "nodes b@h c@h d@h e@h")


@case
def page_in_a_browser(field):
    """The page in headless Chromium: the odd groups are text, and no script runs. Without Chromium
    this case only says so."""
    if CHROMIUM is None:
        print("     (no Chromium here: page_in_a_browser tries nothing)", flush=True)
        return
    a = http_node(field, "a@h")
    for odd in (*ODD_GROUPS, "<img/src=x/onerror=document.title='ran'>"):
        member(a, odd)
    home = field.keep(Folder()).path
    words = [
        CHROMIUM,
        "--headless",
        "--no-sandbox",
        "--disable-gpu",
        f"--user-data-dir={home}",
        "--window-size=360,640",
        "--dump-dom",
        f"http://127.0.0.1:{a.http_port}/",
    ]
    done = subprocess.run(
        words, stdin=subprocess.DEVNULL, capture_output=True, timeout=LIMIT, check=False
    )
    body = done.stdout.decode("utf-8", "replace")
    expect_that("<title>a@h</title>" in body, "its title", body[:300])
    expect_that(
        "&lt;script&gt;alert(1)&lt;/script&gt;" in body
        and "<script" not in body
        and "<img" not in body,
        "text alone",
        body,
    )
