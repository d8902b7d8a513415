"""The control socket, the standard streams, and how a node ends."""

import os
import socket
import stat
import subprocess

from field import case
from node import (
    asked,
    await_members,
    await_nodes,
    member,
    members,
    new_pid,
    nodes,
    plain_lines,
    size,
    start,
)
from talk import Control
from waiting import LIMIT, expect, expect_that, until


@case
def control_dies(field):
    """When a control connection closes, its processes are gone here and elsewhere, and those
    of others stay."""
    a = field.node("a@h")
    b = field.node("b@h", dial=[a])
    start(b)
    staying, leaving = field.control(a), field.control(a)
    stays, goes = member(staying), [member(leaving), member(leaving)]
    number = staying.ask("monitor pg g").split()[1]
    await_members(b, [stays, *goes])
    leaving.close()
    gone = [staying.told(f"! leave {number} g [12] (.*)")[1][1].split()]
    if len(gone[0]) == 1:
        gone.append(staying.told(f"! leave {number} g 1 (.*)")[1][1].split())
    expect("the processes that monitors are told of", sorted(goes), sorted(sum(gone, [])))
    for node in (a, b):
        await_members(node, [stays])


@case
def killed_client(field):
    """The processes of a client that is killed are gone."""
    a = field.node("a@h")
    start(a)
    client = subprocess.Popen(["python3", "-c", CLIENT, a.control_path])
    try:
        until("a member", lambda: members(a))
    finally:
        client.kill()
        client.wait()
    await_members(a, [])


CLIENT = """
import socket, sys, time
control = socket.socket(socket.AF_UNIX)
control.connect(sys.argv[1])
lines = control.makefile()
def ask(line):
    control.sendall(line.encode() + b"\\n")
    return lines.readline().split()
ask("join pg g " + ask("spawn")[1])
time.sleep(600)
"""


@case
def hundred_controls(field):
    """100 control connections at once are served; one too many is told so and closed; seats of
    closed ones are free again."""
    a = field.node("a@h")
    start(a)
    for _ in range(2):
        controls = [
            until(f"connection {number} to be served", lambda: served(field, a))
            for number in range(100)
        ]
        pids = [member(control) for control in controls]
        await_members(a, pids)
        while (one_more := served(field, a)) is not None:
            controls.append(one_more)
            expect_that(len(controls) < 256, "a limit of connections", len(controls))
        for control in controls:
            control.close()
        await_members(a, [])


def served(field, node):
    """A new connection; None, where it is told that it is one too many, and closed."""
    control = field.control(node)
    try:
        control.send("size")
    except OSError:
        pass
    answer = control.next_answer("an answer to a connection")
    if answer.startswith("size "):
        return control
    expect("what one too many is told", "fault full", answer)
    control.await_end()
    return None


@case
def not_yours(field):
    """A process of another connection can't be made to exit, join or leave; the refused line
    makes no entry."""
    a = field.node("a@h")
    start(a)
    one, other = field.control(a), field.control(a)
    pid = member(one)
    before = size(a)
    for line in (f"exit {pid}", f"join pg g {pid}", f"leave pg g {pid}"):
        for talk in (other, a):
            asked(talk, line, "fault not yours")
    expect("the size of the audit", before, size(a))
    asked(one, f"leave pg g {pid}")
    asked(one, f"exit {pid}")


@case
def lines_that_cannot_be_read(field):
    """A line that can't be read is answered `fault ..`, makes no entry, and the connection goes on;
    so are commands that speak for a link."""
    a = field.node("a@h")
    start(a)
    control = field.control(a)
    before = size(control)
    lines = [
        "spwan",
        "join",
        "members pg",
        "start  pg",
        " spawn",
        "exit a@h/1",
        "monitor pg g h",
        "demonitor x",
        "audit",
        "spawn now",
        "members \x7f g",
        "start " + "s" * 256,
        "opened 1",
        "dial b@h 1",
        "frame 1 00",
        "take 1",
        "lost 1",
        "seat 1",
        "updates 1",
        "restart",
        "\x00\x01",
        "x" * 5000,
    ]
    for line in lines:
        answer = control.ask(line)
        expect_that(
            answer.startswith("fault ") and len(answer) > 6, f"a fault for {line[:40]!r}", answer
        )
    expect("the size of the audit", before, size(control))
    new_pid(control)


@case
def cut_lines(field):
    """Lines may come in any pieces, many at once too, the last without its line feed; all are
    answered, also to who sends no more."""
    a = field.node("a@h")
    control = field.control(a)
    for byte in b"size\nsize\n":
        control.socket.sendall(bytes([byte]))
    control.socket.sendall(b"size\n" * 2000 + b"start pg\nsize")
    control.socket.shutdown(socket.SHUT_WR)
    for number in range(2002):
        expect(f"answer {number}", "size 0", control.next_answer("an answer"))
    expect("the answer to start", "ok", control.next_answer("an answer"))
    expect("the answer to a line without its line feed", "size 1", control.next_answer("an answer"))
    control.await_end()


@case
def endless_line(field):
    """A line of 32 MB is answered `fault ..`, and neither the connection nor much memory
    is lost by it."""
    a = field.node("a@h")
    control = field.control(a)
    memory, _ = a.memory()
    for _ in range(32):
        control.socket.sendall(b"x" * 1_000_000)
    answer = control.ask("")
    expect_that(answer.startswith("fault "), "a fault", answer)
    asked(control, "size", "size 0")
    expect_that(a.memory()[0] - memory < 16384, "16 MiB more at most", a.memory()[0] - memory)


@case
def client_that_never_reads(field):
    """A client that watches and doesn't read its news holds nobody up, and not the
    end of the node."""
    a = field.node("a@h")
    group = "g" * 255
    pid = member(a)
    deaf = socket.socket(socket.AF_UNIX)
    field.keep(deaf).connect(a.control_path)
    deaf.sendall(b"monitor_scope pg\nspawn\n")
    # (a megabyte of news, of which the kernel holds a quarter)
    for _ in range(2000):
        asked(a, f"join pg {group} {pid}")
        asked(a, f"leave pg {group} {pid}")
    await_members(a, [pid])
    a.send("quit")
    expect("the status after quit", 0, a.status())


@case
def socket_of_the_owner(field):
    """The control socket is its owner's alone, a stale one is replaced, and one that
    answers isn't."""
    a = field.node("a@h")
    expect(
        "the mode of the control socket",
        "0o600",
        oct(stat.S_IMODE(os.stat(a.control_path).st_mode)),
    )
    second = field.start("a@h")
    expect("the status of a second node at that path", 1, second.status())
    expect("the nodes that are up", "nodes", Control(a.control_path).ask("nodes"))
    a.kill()
    expect_that(os.path.exists(a.control_path), "the socket of a killed node to stay", "none")
    expect("the nodes that are up", "nodes", field.control(field.node("a@h")).ask("nodes"))


@case
def quit_and_end(field):
    """`quit`, or the end of standard input where there is no control socket, ends a node with
    status 0; peers see it at once."""
    a = field.node("a@h")
    b = field.node("b@h", dial=[a], control=False)
    await_nodes(a, ["b@h"])
    b.process.stdin.close()
    why = 'info input_ended reason="standard input has ended, and there is no --control"'
    expect(
        "the status at the end of standard input, and why it ends",
        (0, [why]),
        (b.status(), b.log("info input_ended")),
    )
    a.told("! down b@h [0-9]+ closed")
    a.process.stdin.close()
    control = field.control(a)
    pid = member(control)
    await_members(control, [pid])
    control.send("quit")
    control.await_end()
    expect(
        "the status after quit, and its lines on standard error", (0, []), (a.status(), a.errors())
    )


@case
def quit_of_one_that_is_gone(field):
    """`quit` is obeyed also where its `ok` can't be written, since who has asked reads no more."""
    a = field.node("a@h")
    stream = field.keep(socket.socket(socket.AF_UNIX))
    stream.connect(a.control_path)
    stream.shutdown(socket.SHUT_RD)  # (who closes at once may still be written to)
    stream.sendall(b"quit\n")
    expect("the status after quit", 0, a.status(20))


@case
def half_open_at_the_end(field):
    """A node with a link up, another half open and a client connected ends at `quit` without
    waiting for them."""
    a = field.node("a@h")
    b = field.node("b@h", dial=[a])
    await_nodes(b, ["a@h"])
    field.keep(socket.create_connection(("127.0.0.1", a.port)))
    control = field.control(a)
    new_pid(control)
    a.send("quit")
    expect("the status after quit", 0, a.status(30))
    control.await_end()


@case
def stdout_closed(field):
    """A node whose standard output was closed ends by itself at its next answer, with one
    line and status 1."""
    words = ["--cookie-file", field.cookie_file(), "--listen", "127.0.0.1:0"]
    errors = os.path.join(field.folder, "errors")
    with open(errors, "wb") as file:
        node = subprocess.Popen(
            [field.program, "a@h", *words],
            stdin=subprocess.PIPE,
            stdout=subprocess.PIPE,
            stderr=file,
        )
    field.keep(node.stdin)
    try:
        expect_that(node.stdout.readline().startswith(b"listening "), "a first line", "another")
        node.stdout.close()
        node.stdin.write(b"nodes\n" * 3)
        node.stdin.flush()
        expect("the status", 1, node.wait(LIMIT))
    finally:
        node.kill()
    one_plain_line(plain_lines(errors))


@case
def port_in_use(field):
    """A port that is in use is told in one plain line, with status 1."""
    a = field.node("a@h")
    b = field.start("b@h", port=a.port)
    expect("the status", 1, b.status())
    one_plain_line(b.errors())
    expect("the nodes that are up", [], nodes(a))


def one_plain_line(lines):
    expect("lines on standard error", 1, len(lines))
    debugged = [
        word for word in ("Err(", "Error {", "Os {", "panicked", "Some(") if word in lines[0]
    ]
    expect_that(not debugged, "a plain line on standard error", lines[0])
