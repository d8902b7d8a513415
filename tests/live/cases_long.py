"""What only shows after a while: the turn of a full audit, a storm, and a long run."""

import json
import os
import random
import signal
import threading
import time

from field import case
from node import asked, await_members, await_nodes, member, members, new_pid, pid_order, size, start
from waiting import expect, expect_that, until

SOAK_SECONDS = 60
STORM_SECONDS = 20
JOINS_A_SECOND = 50


@case
def audit_turn(field):
    """A node whose entries have come to the last of their numbers begins anew with its links: its
    processes are gone, and all are told; it goes on serving."""
    path = os.path.join(field.folder, "audit")
    a = field.node("a@h", "--last-entry", "400", "--audit", path, "--creation", "41")
    b = field.node("b@h", dial=[a])
    start(b)
    control = field.control(a)
    pid = member(control)
    await_members(b, [pid])
    b.told("! up a@h 41 visible")
    fill(control, pid)
    for talk in (control, a):
        talk.told("! down b@h [0-9]+ restarted")
        talk.told("! restarted 42")
    b.told("! down a@h 41 closed")
    b.told("! up a@h 42 visible")
    again = new_pid(control)
    expect("a process of the new life", "a@h/42/1", again)
    asked(control, f"join pg g {again}")
    await_members(b, [again])
    asked(control, f"join pg g {pid}", "fault not yours")
    expect_that(size(a) < 100, "an audit that began anew", size(a))
    ended = until(
        "the audit that ended", lambda: lives_of(path), lambda lives: lives and len(lives[0]) > 300
    )[0]
    expect_that(
        any(entry["event"] == "Spawn" and entry["verdict"] == "accepted" for entry in ended),
        "an accepted Spawn among its lines",
        ended[:3],
    )
    expect("the status after quit", 0, a.quit())
    lives = lives_of(path)
    expect("the lives in the archive", 2, len(lives))
    for life in lives:
        expect(
            "the numbers of a life",
            list(range(1, len(life) + 1)),
            [entry["entry"] for entry in life],
        )


def fill(control, pid):
    """Joins and leaves until the node begins anew; an answer may then be a refusal of
    the old process."""
    for _ in range(1000):
        for word in ("join", "leave"):
            answer = control.ask(f"{word} pg g {pid}")
            if control.untold("! restarted [0-9]+"):
                return
            expect("an answer before the turn", "ok", answer)
    raise AssertionError("expected a turn of the audit within 1000 joins, came none")


def lives_of(path):
    """The entries of each life in an archive."""
    lives = []
    if os.path.exists(path):
        with open(path, encoding="ascii") as lines:
            for line in map(json.loads, (line for line in lines if line.endswith("\n"))):
                if "life" in line:
                    lives.append([])
                else:
                    lives[-1].append(line)
    return lives


@case
def turn_with_commands(field):
    """What was set by commands before the turn of an audit holds behind it: scopes, cookies,
    the allow list."""
    a = field.node("a@h", "--last-entry", "300")
    asked(a, "cookie another")
    asked(a, "allow b@h")
    start(a, "first")
    start(a, "second")
    while not a.untold("! restarted [0-9]+"):
        expect_that(a.ask("spawn").startswith("pid "), "a process", a.answers)
    for scope in ("first", "second"):
        asked(a, f"start {scope}", "refused 22 ScopeRunning")
    field.node("b@h", dial=[a], cookie="another")
    await_nodes(a, ["b@h"])
    c = field.node("c@h", dial=[a], cookie="another")
    pid = new_pid(c)
    expect_that(pid.startswith("c@h/"), "a node that goes on", pid)
    await_nodes(a, ["b@h"])


@case
def busy_turns(field):
    """While eight clients ask all the time a node begins anew several times: each line has an
    answer, and who is listed in the end is right."""
    a = field.node("a@h", "--last-entry", "3000", "--creation", "1")
    b = field.node("b@h", dial=[a])
    start(a)
    start(b)
    controls = [field.control(a) for _ in range(8)]
    strange = []
    threads = [threading.Thread(target=ask_much, args=(control, strange)) for control in controls]
    for thread in threads:
        thread.start()
    for thread in threads:
        thread.join()
    expect("answers that nobody understands", [], strange[:3])
    turns = len(a.untold("! restarted [0-9]+"))
    expect_that(turns >= 2, "two turns at least", turns)
    expect(
        "the creations that were told",
        [f"! restarted {life + 2}" for life in range(turns)],
        a.untold("! restarted [0-9]+"),
    )
    pids = [member(control, "last") for control in controls]
    await_members(b, pids, "last")
    await_members(a, pids, "last")


def ask_much(control, strange):
    """Spawns, joins and exits; what is answered must be what can be, also where the node began anew
    between two lines."""
    for _ in range(400):
        answer = control.ask("spawn")
        pid = answer.removeprefix("pid ")
        for line in (f"join pg g {pid}", f"leave pg g {pid}", f"exit {pid}"):
            answer = control.ask(line)
            if answer not in ("ok", "fault not yours"):
                strange.append((line, answer))


@case
def storm(field):
    """Five nodes that are killed, stand still, disconnect and begin anew, with clients that come
    and go, agree in the end on who is there."""
    chance = random.Random(5)
    ports = [field.free_port() for _ in range(5)]
    sites = [Site(field, number, ports) for number in range(5)]
    end = time.monotonic() + STORM_SECONDS
    while time.monotonic() < end:
        chance.choice(sites).suffer(chance)
    for site in sites:
        await_nodes(site.node, [other.name for other in sites if other is not site])
    until(
        "one view of all", lambda: views(sites), lambda seen: all(view == seen[0] for view in seen)
    )
    for site in sites:
        expect(f"the status of {site.name}", 0, site.node.quit())


def views(sites):
    """The members as their own nodes have them, and then as each node lists them."""
    own = [pid for site in sites for pid in site.node.ask("local_members pg g").split()[1:]]
    return [sorted(own, key=pid_order), *(members(site.node) for site in sites)]


class Site:
    """A node that dials four others at their ports, and its clients."""

    def __init__(self, field, number, ports):
        self.field, self.name, self.port = field, f"n{number}@h", ports[number]
        self.others = [
            f"n{other}@h=127.0.0.1:{port}" for other, port in enumerate(ports) if other != number
        ]
        self.begin()

    def begin(self):
        dials = [word for other in self.others for word in ("--dial", other)]
        self.node = self.field.node(self.name, "--last-entry", "700", *dials, port=self.port)
        self.clients = []
        start(self.node)

    def suffer(self, chance):
        """One thing of those that happen to nodes, most of them rarely."""
        what = chance.random()
        if what < 0.004:
            self.node.kill()
            self.begin()
        elif what < 0.03:
            self.stand_still(chance.random() / 3)
        elif what < 0.05:
            self.node.ask(f"disconnect {chance.choice(self.others).split('=')[0]}")
        elif what < 0.3 and len(self.clients) < 20:
            self.clients.append(self.field.control(self.node))
        elif self.clients and what < 0.4:
            self.clients.pop(chance.randrange(len(self.clients))).close()
        elif self.clients:
            self.work(chance.choice(self.clients), chance)

    def stand_still(self, seconds):
        self.node.signal(signal.SIGSTOP)
        time.sleep(seconds)
        self.node.signal(signal.SIGCONT)

    def work(self, client, chance):
        """Processes join, and most of them leave; whatever is answered where the node begins
        anew meanwhile."""
        for _ in range(chance.randrange(10)):
            pid = new_pid(client)
            for line in (
                f"join pg g {pid}",
                *chance.choice([[], [f"leave pg g {pid}"], [f"leave pg g {pid}", f"exit {pid}"]]),
            ):
                answer = client.ask(line)
                expect_that(answer in ("ok", "fault not yours"), f"an answer to {line!r}", answer)


@case
def soak(field):
    """60 seconds with 50 joins a second, clients that come and go: memory grows as the audit does,
    and threads stay."""
    a = field.node("a@h")
    b = field.node("b@h", dial=[a])
    start(b)
    joining, watching = field.control(a), field.control(b)
    pid = member(joining)
    await_members(b, [pid])
    number = watching.ask("monitor pg g").split()[1]
    turns(field, a, joining, pid, 5)
    before = {node.name: (*node.memory(), size(node)) for node in (a, b)}
    joins = turns(field, a, joining, pid, SOAK_SECONDS)
    expect_that(
        joins >= SOAK_SECONDS * JOINS_A_SECOND // 2,
        f"{JOINS_A_SECOND} joins a second, or half of it",
        joins,
    )
    last = member(joining, "last")
    await_members(b, [last], "last")
    until(
        "all news",
        lambda: len(watching.untold(f"! join {number} g 1 {pid}")),
        lambda told: told >= joins,
    )
    for node in (a, b):
        memory, threads, entries = before[node.name]
        memory_now, threads_now, entries_now = (*node.memory(), size(node))
        expect_that(threads_now <= threads + 2, f"{threads} threads of {node.name}", threads_now)
        # An entry with its copies takes less than 2 KiB, and what was freed may stay
        # with the process.
        room = 2 * (entries_now - entries) + 8192
        expect_that(
            memory_now - memory < room,
            f"{node.name} to grow by less than {room} KiB",
            memory_now - memory,
        )


def turns(field, node, joining, pid, seconds):
    """Joins and leaves at that pace for so many seconds, with a client now and then; gives the
    number of joins."""
    began = time.monotonic()
    joins = 0
    while (now := time.monotonic() - began) < seconds:
        if joins > now * JOINS_A_SECOND:
            time.sleep(0.005)
            continue
        asked(joining, f"join pg g {pid}")
        asked(joining, f"leave pg g {pid}")
        joins += 1
        if joins % 100 == 0:
            client = field.control(node)
            member(client, "passing")
            client.close()
    return joins
