"""Links with stock nodes: how they are found, kept and ended, and what else a stock
node says on them."""

import os
import time

from cases_pg import linked
from field import case
from node import asked, await_members, await_nodes, members, new_pid
from stock import same_views, up
from waiting import expect, expect_that, until


def other_words(stock, node):
    """What else a stock node says: a sync of `global`, a ping, a call, a link, a monitor. None of
    them hangs or ends the link."""
    expect("global:sync()", "ok", stock.ask("global:sync()", 20))
    expect("a ping", "pong", stock.ask(f"net_adm:ping('{node.name}')", 20))
    own = new_pid(node)
    asked(node, f"join jobs called {own}")
    until("the process", lambda: stock.members("called"), lambda came: came == [own])
    came = stock.ask(
        "[W | _] = pg:get_members(jobs, called), W ! {job, 1}, catch gen_server:call(W, hi, 5000)",
        20,
    )
    expect_that("noproc" in came, "a call that ends at once", came)
    came = stock.ask(
        "{_, M} = spawn_monitor(fun() -> link(hd(pg:get_members(jobs, called))), "
        "receive after 5000 -> ok end end), "
        "receive {'DOWN', M, _, _, R1} -> R1 after 4000 -> none end",
        20,
    )
    expect_that("noproc" in came or "noconnection" in came, "a link that ends at once", came)
    came = stock.ask(
        "R2 = monitor(process, hd(pg:get_members(jobs, called))), "
        "receive {'DOWN', R2, _, _, R3} -> R3 after 4000 -> none end",
        20,
    )
    expect_that("noproc" in came, "a monitor that ends at once", came)
    came = stock.ask(f"catch rpc:call('{node.name}', erlang, node, [], 4000)", 20)
    expect_that("badrpc" in came, "a call of rpc that ends at once", came)
    asked(node, f"exit {own}")
    until("the link is up", lambda: stock.members("called"), lambda came: came == [])


@case
def hidden_node(field):
    """A hidden link: none of the node's nodes, `global`, ping, calls and links end at once, and a
    scope that begins late is found."""
    field.epmd()
    stock, node = linked(field)
    expect("the nodes", [], stock.knows())
    expect("the hidden nodes", [node.name], stock.knows("hidden"))
    other_words(stock, node)
    stock.ask(f"erlang:disconnect_node('{node.name}')")
    until(
        "a line about what was dropped",
        lambda: node.log("info otp_dropped reason=for_member")
        or node.log("info otp_dropped reason=unanswered"),
    )


@case
def visible_node(field):
    """A visible link, the same: it is among the nodes of the stock node."""
    field.epmd()
    stock, node = linked(field, "--otp-visible")
    up(node, stock.name, "otp_visible")
    expect("the nodes", [node.name], stock.knows())
    other_words(stock, node)
    stock.ask("pg:start(late), P = spawn(fun ctl:member/0), pg:join(late, g, P)")
    asked(node, "start late")
    await_members(node, [stock.text("ctl:process(P)")], "g", "late")


@case
def links_are_lost_and_replaced(field):
    """A link that a stock node ends loses its rows and comes again; a second one of the same node
    replaces the first; and so does a stock node that begins anew."""
    stock = field.stock("a@127.0.0.1")
    first = stock.member()
    node = field.worker(*field.dial(stock))
    await_members(node, [first], "printers", "jobs")
    stock.ask(f"erlang:disconnect_node('{node.name}')")
    until(
        "the link again",
        lambda: "down" if not node.log("info down") else members(node, "printers", "jobs"),
        lambda came: came == [first],
    )
    same_views("behind a lost link", stock, node)
    stock.process.kill()
    stock.process.wait()
    await_members(node, [], "printers", "jobs")
    field.stocks.remove(stock)
    anew = field.stock("a@127.0.0.1")
    second = anew.member()
    anew.connect(node.name)
    await_members(node, [second], "printers", "jobs")
    asked(node, f"disconnect {anew.name}")
    until(
        "the stock node to see the end",
        lambda: anew.knows("hidden"),
        lambda came: node.name not in came,
    )
    anew.connect(node.name)
    await_members(node, [second], "printers", "jobs")
    same_views("anew", anew, node)


@case
def node_begins_anew(field):
    """A node that was killed and is started again, with another creation, comes back to a stock
    node; of its first life nothing stays."""
    stock = field.stock("a@127.0.0.1")
    first = stock.member()
    node = field.worker(*field.dial(stock), "--creation", "77")
    await_members(node, [first], "printers", "jobs")
    own = new_pid(node)
    asked(node, f"join jobs printers {own}")
    stock.await_members([first, own])
    node.kill()
    stock.await_members([first])
    again = field.worker(*field.dial(stock), "--creation", "78")
    await_members(again, [first], "printers", "jobs")
    own = new_pid(again)
    asked(again, f"join jobs printers {own}")
    stock.await_members([first, own])


@case
def three_stock_nodes(field):
    """Three stock nodes, each linked with the node: membership is whole; where they part from each
    other their links to the node stay, and theirs come back."""
    field.epmd()
    node = field.worker()
    stocks = [field.stock(f"{letter}@127.0.0.1") for letter in "abc"]
    rows = [stock.member() for stock in stocks]
    for stock in stocks:
        stock.connect(node.name)
    stocks[0].connect(stocks[1].name)
    stocks[0].connect(stocks[2].name)
    own = new_pid(node)
    asked(node, f"join jobs printers {own}")
    for stock in stocks:
        stock.await_members([*rows, own])
    await_members(node, [*rows, own], "printers", "jobs")
    stocks[0].ask(f"erlang:disconnect_node('{stocks[1].name}')")
    until("the nodes to part", lambda: stocks[0].knows(), lambda came: stocks[1].name not in came)
    await_nodes(node, [stock.name for stock in stocks])
    await_members(node, [*rows, own], "printers", "jobs")
    stocks[0].connect(stocks[1].name)
    stocks[0].connect(stocks[2].name)
    stocks[1].connect(stocks[2].name)
    for stock in stocks:
        stock.await_members([*rows, own])


@case
def epmd_has_both(field):
    """EPMD has the node, and gets it again where it begins anew; a stock node without an address is
    found by its name, at another port after another start."""
    epmd = field.epmd()
    stock = field.stock("a@127.0.0.1")
    first = stock.member()
    node = field.worker("--otp-dial", stock.name)
    expect("the port that EPMD has", str(node.otp_port), field.epmd_names().get("w"))
    await_members(node, [first], "printers", "jobs")
    expect_that(
        f"epmd@127.0.0.1:{field.epmd_port}" in node.ask("dials"),
        "the place of a dial",
        node.ask("dials"),
    )
    epmd.close()
    time.sleep(0.5)
    field.epmd()
    until(
        "a registration at the next EPMD",
        lambda: field.epmd_names().get("w"),
        lambda came: came == str(node.otp_port),
    )
    stock.process.kill()
    stock.process.wait()
    field.stocks.remove(stock)
    await_members(node, [], "printers", "jobs")
    anew = field.stock("a@127.0.0.1")
    second = anew.member()
    await_members(node, [second], "printers", "jobs")
    node.quit()
    until("EPMD to forget the node", field.epmd_names, lambda came: "w" not in came)


@case
def unregistered(field):
    """A stock node at a fixed port is dialled; a dial to one that EPMD doesn't have says so."""
    stock = field.stock("a@127.0.0.1")
    first = stock.member()
    node = field.worker(
        *field.dial(stock), "--otp-dial", "nobody@127.0.0.1", listen=False, epmd=True
    )
    await_members(node, [first], "printers", "jobs")
    until("a dial of nobody", lambda: node.ask("dials"), lambda came: "unregistered" in came)


@case
def no_epmd(field):
    """Without an EPMD a dial and a line of the log say so; once there is one the node is
    registered, and finds the stock node."""
    node = field.worker("--otp-dial", "a@127.0.0.1")
    until("a dial without EPMD", lambda: node.ask("dials"), lambda came: "no_epmd" in came)
    until("a line of the log", lambda: node.log("warn not_registered "))
    stock = field.stock("a@127.0.0.1")
    first = stock.member()
    until("a registration", lambda: node.log("info registered "))
    await_members(node, [first], "printers", "jobs")
    expect("lines about EPMD", 1, len(node.log("warn not_registered ")))


@case
def strangers(field):
    """A wrong cookie, at either end, and a stock node that isn't allowed: no link. With a cookie of
    its own it is one."""
    field.epmd()
    wrong = os.path.join(field.folder, "wrong")
    with open(
        wrong, "w", encoding="ascii", opener=lambda path, flags: os.open(path, flags, 0o600)
    ) as file:
        file.write("wrong\n")
    stock = field.stock("a@127.0.0.1")
    other = field.stock("b@127.0.0.1")
    own = field.stock("c@127.0.0.1")
    node = field.worker(
        "--allow", stock.name, "--allow", own.name, "--cookie-for", f"{own.name}={wrong}"
    )
    other.connect(node.name, "false")
    own.connect(node.name, "false")
    own.ask(f"erlang:set_cookie('{node.name}', wrong)")
    own.connect(node.name)
    stock.ask(f"erlang:set_cookie('{node.name}', wrong)")
    stock.connect(node.name, "false")
    await_nodes(node, [own.name])
    expect_that(
        "NotAllowed" in node.ask("refusals"),
        "a refusal of what isn't allowed",
        node.ask("refusals"),
    )


@case
def ports_of_others(field):
    """A stock node at `--listen`, and a pg_node at `--otp-listen`, are told in a line of the log;
    neither is a link that does harm."""
    field.epmd()
    node = field.start("w@127.0.0.1", "--otp-listen", "127.0.0.1:0").ready()
    asked(node, "start jobs")
    native = field.start("n@127.0.0.1", "--dial", f"{node.name}=127.0.0.1:{node.otp_port}").ready()
    until("a line of the log", lambda: node.log("warn no_stock_node"))
    expect("no link", [], [word for word in native.ask("nodes").split()[1:]])
    native.quit()
    plain = field.start("p@127.0.0.1", port=0).ready()
    helper = field.start(
        "d@127.0.0.1", "--otp-dial", f"{plain.name}=127.0.0.1:{plain.port}", port=None
    ).ready()
    until("a line of the log", lambda: plain.log("warn stock_node"))
    helper.quit()
