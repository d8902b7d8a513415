"""Stock nodes of Erlang/OTP, and an EPMD of their own, on 127.0.0.1. All that is started here is
ended by its own number."""

import os
import queue
import re
import socket
import subprocess
import threading

from field import COOKIE, Field
from waiting import LIMIT, expect, until

HERE = os.path.dirname(os.path.realpath(__file__))


def free_port():
    with socket.socket() as one:
        one.bind(("127.0.0.1", 0))
        return one.getsockname()[1]


def end(process):
    if process.poll() is None:
        process.terminate()
        try:
            process.wait(5)
        except subprocess.TimeoutExpired:
            process.kill()
            process.wait()


class Process:
    """A process that ends with the case."""

    def __init__(self, process):
        self.process = process

    def close(self):
        end(self.process)


class Stock:
    """A stock node, which is asked by Erlang's expressions."""

    def __init__(self, field, name, *arguments, cookie=COOKIE, env=None):
        self.name = name
        words = [
            "erl",
            "-noshell",
            "-start_epmd",
            "false",
            "-name",
            name,
            "-setcookie",
            cookie,
            "-pa",
            field.beams(),
            "-kernel",
            "inet_dist_use_interface",
            "{127,0,0,1}",
            *arguments,
            "-s",
            "ctl",
            "main",
        ]
        place = {
            **os.environ,
            "ERL_EPMD_PORT": str(field.epmd_port),
            "HOME": field.folder,
            "ERL_CRASH_DUMP_BYTES": "0",
            **(env or {}),
        }
        self.log_path = os.path.join(field.folder, f"{name}.log")
        with open(self.log_path, "ab") as log:
            self.process = subprocess.Popen(
                words, stdin=subprocess.PIPE, stdout=subprocess.PIPE, stderr=log, env=place
            )
        self._answers = queue.Queue()
        threading.Thread(target=self._read, daemon=True).start()
        field.keep(self)
        self.ask("ok")
        self.scope = None

    def _read(self):
        for line in self.process.stdout:
            text = line.decode("utf-8", "replace").rstrip("\n")
            if text.startswith("ANS "):
                self._answers.put(text[4:])
        self._answers.put(None)

    def send(self, expression):
        self.process.stdin.write(f"{expression}.\n".encode())
        self.process.stdin.flush()

    def ask(self, expression, limit=LIMIT):
        """The value of an expression, as Erlang writes it."""
        self.send(expression)
        try:
            answer = self._answers.get(timeout=limit)
        except queue.Empty:
            raise AssertionError(
                f"expected a value of {expression[:80]!r} at {self.name} within {limit} s,"
                " came none"
            ) from None
        if answer is None:
            self._answers.put(None)
            raise AssertionError(
                f"expected a value of {expression[:80]!r} at {self.name}, came its end"
            )
        return answer

    def start(self, scope="jobs"):
        """Starts a scope. It is looked at the end whether it lives on."""
        self.ask(f"pg:start({scope})")
        self.scope = self.ask(f"ctl:process(whereis({scope}))")
        return self

    def restart(self, scope="jobs"):
        self.ask(f"exit(whereis({scope}), kill), timer:sleep(100), pg:start({scope})")
        self.scope = self.ask(f"ctl:process(whereis({scope}))")

    def lives_on(self, scope="jobs"):
        """That the scope is the one that was started."""
        expect(f"the scope of {self.name}", self.scope, self.ask(f"ctl:process(whereis({scope}))"))

    def member(self, group="printers", scope="jobs", name="P"):
        """A new process in a group, as pg_node writes it. The expression of a case knows
        it by its name."""
        self.ask(f"{name} = spawn(fun ctl:member/0), pg:join({scope}, {group}, {name})")
        return self.text(f"ctl:process({name})")

    def text(self, expression):
        """The value of an expression that is a text."""
        return self.ask(expression).strip('"')

    def texts(self, expression):
        """The value of an expression that is a list of texts."""
        return re.findall(r'"([^"]*)"', self.ask(expression))

    def members(self, group="printers", scope="jobs"):
        return sorted(self.texts(f"ctl:members({scope}, {group})"))

    def view(self, scope="jobs"):
        return sorted(self.texts(f"ctl:view({scope})"))

    def await_members(self, processes, group="printers", scope="jobs", limit=LIMIT):
        until(
            f"members {processes} of {group} at {self.name}",
            lambda: self.members(group, scope),
            lambda came: came == sorted(processes),
            limit,
        )

    def connect(self, name, wanted="true", limit=LIMIT):
        expect(
            f"{self.name} connected to {name}",
            wanted,
            self.ask(f"net_kernel:connect_node('{name}')", limit),
        )

    def knows(self, kind=""):
        """The nodes of this kind that it has."""
        return sorted(re.findall(r"'([^']*)'", self.ask(f"nodes({kind})")))

    def port(self):
        """Where it takes links, as EPMD says."""
        return int(
            self.ask(
                "element(2, erl_epmd:port_please("
                'hd(string:split(atom_to_list(node()), "@")), "127.0.0.1"))'
            )
        )

    def close(self):
        end(self.process)


class OtpField(Field):
    """A field with an EPMD of its own."""

    def __init__(self, program, ask_program):
        super().__init__(program, ask_program)
        self.epmd_port = free_port()
        self._epmd = None
        self.stocks = []

    def beams(self):
        """Where what is compiled for stock nodes lies."""
        if not os.path.exists(os.path.join(self.folder, "ctl.beam")):
            subprocess.check_call(["erlc", "-o", self.folder, os.path.join(HERE, "ctl.erl")])
        return self.folder

    def epmd(self):
        """Starts EPMD."""
        process = subprocess.Popen(
            ["epmd", "-port", str(self.epmd_port), "-address", "127.0.0.1"],
            stdout=subprocess.DEVNULL,
            stderr=subprocess.DEVNULL,
        )
        self._epmd = self.keep(Process(process))

        def answers():
            try:
                socket.create_connection(("127.0.0.1", self.epmd_port), 1).close()
                return True
            except OSError:
                return False

        until("an EPMD", answers)
        return self._epmd

    def epmd_names(self):
        """The names that EPMD has, each with its port."""
        with socket.create_connection(("127.0.0.1", self.epmd_port), 5) as link:
            link.sendall(b"\0\1n")
            said = b""
            while more := link.recv(4096):
                said += more
        return dict(re.findall(r"name (\S+) at port (\d+)", said[4:].decode()))

    def stock(self, name, *arguments, scope="jobs", **rest):
        """A stock node, with a scope."""
        if self._epmd is None:
            self.epmd()
        stock = Stock(self, name, *arguments, **rest)
        self.stocks.append(stock)
        return stock.start(scope) if scope else stock

    def worker(self, *options, name="w@127.0.0.1", scope="jobs", listen=True, epmd=True, **rest):
        """A pg_node that stock nodes may dial, with a scope."""
        words = ["--otp-listen", "127.0.0.1:0"] if listen else []
        words += [f"--epmd={self.epmd_port}"] if epmd else []
        node = self.start(name, *words, *options, port=None, **rest).ready()
        if listen and epmd and self._epmd is not None:
            until("a registration", lambda: name.split("@")[0] in self.epmd_names())
        if scope:
            expect("the start of a scope", "ok", node.ask(f"start {scope}"))
        return node

    def dial(self, stock):
        """The words by which a pg_node dials a stock node at its port."""
        return ["--otp-dial", f"{stock.name}=127.0.0.1:{stock.port()}"]

    def check_errors(self):
        """That each stock scope lives on, and that nothing came to grief."""
        for stock in self.stocks:
            if stock.scope is not None and stock.process.poll() is None:
                stock.lives_on()
        super().check_errors()


def pg_view(node, scope="jobs"):
    """All that a pg_node lists, as `Stock.view` has it."""
    rows = []
    for group in node.ask(f"groups {scope}").split()[1:]:
        rows += [
            f"{group} {process}" for process in node.ask(f"members {scope} {group}").split()[1:]
        ]
    return sorted(rows)


def same_views(what, stock, node, limit=LIMIT, scope="jobs"):
    """Until both list the same; how many rows that are."""

    def both():
        return stock.view(scope), pg_view(node, scope)

    at_stock, _ = until(f"equal views: {what}", both, lambda came: came[0] == came[1], limit, 0.2)
    return len(at_stock)


def up(node, name, kind=None, limit=LIMIT):
    """Until the link to that stock node is up; its kind."""

    def found():
        words = node.ask("links").split()
        return words[words.index(name) + 2] if name in words else None

    came = until(f"a link of {node.name} to {name}", found, limit=limit)
    if kind is not None:
        expect("the kind of a link", kind, came)
    return came
