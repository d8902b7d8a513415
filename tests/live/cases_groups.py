"""Nodes as processes of their own, their groups, and what becomes of them when one is gone."""

from field import case
from node import asked, await_members, await_nodes, member, new_pid, start
from waiting import expect, expect_that


@case
def two_nodes(field):
    """A join on one of two nodes is seen on the other, told to its monitor, and a leave as well."""
    a = field.node("a@h")
    b = field.node("b@h", dial=[a])
    for node in (a, b):
        start(node)
        await_nodes(node, ["b@h" if node is a else "a@h"])
    watching = field.control(b)
    reference = watching.ask("monitor pg g")
    expect_that(reference.startswith("ref "), "a monitor", reference)
    number = reference.split()[1]
    pid = member(a)
    watching.told(f"! join {number} g 1 {pid}")
    await_members(b, [pid])
    asked(a, f"leave pg g {pid}")
    watching.told(f"! leave {number} g 1 {pid}")
    await_members(b, [])


@case
def three_nodes(field):
    """Three nodes that dial each other list the processes of all, and each tells who is up."""
    a = field.node("a@h")
    b = field.node("b@h", dial=[a])
    c = field.node("c@h", dial=[a, b])
    pids = [member(node) for node in (a, b, c)]
    for node in (a, b, c):
        await_members(node, pids)
    for node, others in ((a, "bc"), (b, "ac"), (c, "ab")):
        await_nodes(node, [f"{other}@h" for other in others])


@case
def sixty_nodes(field):
    """A join on one node is seen on 59 that dialled it, and their joins on it."""
    hub = field.node("hub@h")
    start(hub)
    dial = ["--dial", f"hub@h=127.0.0.1:{hub.port}"]
    others = [field.start(f"n{number}@h", *dial, port=None) for number in range(59)]
    pids = [member(node.ready()) for node in others]
    await_nodes(hub, [node.name for node in others])
    await_members(hub, pids)
    pid = member(hub)
    for own, node in zip(pids, others):
        await_members(node, [own, pid])


@case
def kill_9(field):
    """When a node is killed, its rows go everywhere, and monitors are told."""
    a = field.node("a@h")
    others = [field.node("b@h", dial=[a]), field.node("c@h", dial=[a])]
    lost = member(a, "g"), member(a, "g")
    for node in others:
        start(node)
        await_members(node, lost)
    monitors = [(node, node.ask("monitor_scope pg").split()[1]) for node in others]
    a.kill()
    for node, number in monitors:
        node.told_all(f"! leave {number} g 2 {' '.join(lost)}", "! down a@h [0-9]+ closed")
        await_members(node, [])
        await_nodes(node, [])


@case
def started_again(field):
    """A node that is started again at its port is dialled again, and is another one: its creation
    differs, its old rows are gone."""
    port = field.free_port()
    a = field.node("a@h", port=port)
    b = field.node("b@h", dial=[a])
    start(b)
    old = member(a)
    await_members(b, [old])
    b.told("! up a@h [0-9]+ visible")
    a.kill()
    b.told("! down a@h [0-9]+ closed")
    again = field.node("a@h", port=port)
    _, up = b.told("! up a@h ([0-9]+) visible")
    new = member(again)
    await_members(b, [new])
    creations = old.split("/")[1], new.split("/")[1]
    expect_that(
        creations[0] != creations[1] and "0" not in creations, "two creations, neither 0", creations
    )
    expect("the creation that the other node was told", creations[1], up[1])


@case
def both_dial(field):
    """Two nodes that dial each other at once have one link, and list each other's processes
    once, each time."""
    for _ in range(5):
        ports = field.free_port(), field.free_port()
        a = field.start("a@h", "--dial", f"b@h=127.0.0.1:{ports[1]}", port=ports[0])
        b = field.start("b@h", "--dial", f"a@h=127.0.0.1:{ports[0]}", port=ports[1])
        pids = [member(node.ready()) for node in (a, b)]
        for node, other in ((a, b), (b, a)):
            await_nodes(node, [other.name])
            await_members(node, pids)
        for node in (a, b):
            expect(f"the status of {node.name}", 0, node.quit())


@case
def disconnected(field):
    """A link that is disconnected goes down at both ends, and is dialled anew."""
    a = field.node("a@h")
    b = field.node("b@h", dial=[a])
    pid = member(a)
    start(b)
    await_members(b, [pid])
    b.told("! up a@h [0-9]+ visible")
    asked(a, "disconnect b@h")
    a.told("! down b@h [0-9]+ disconnected")
    b.told("! down a@h [0-9]+ closed")
    b.told("! up a@h [0-9]+ visible")
    await_members(b, [pid])


@case
def scopes_apart(field):
    """What is joined in one scope isn't seen in another, and a scope that is stopped takes
    its rows along."""
    a = field.node("a@h")
    b = field.node("b@h", dial=[a])
    first, second = member(a, scope="first"), member(a, scope="second")
    for scope, pid in (("first", first), ("second", second)):
        start(b, scope)
        await_members(b, [pid], scope=scope)
    asked(a, "stop first")
    await_members(b, [], scope="first")
    await_members(b, [second], scope="second")
    expect("a query of a scope that doesn't run", "refused 14 NoScope", b.ask("members third g"))
    expect("a process of its own", "refused 14 NoScope", b.ask(f"join third g {new_pid(b)}"))
