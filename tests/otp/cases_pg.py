"""Rows of both sides: joins, leaves, exits, scopes that end and begin, and their limits."""

import random

from field import case
from node import asked, await_members, members, new_pid
from stock import pg_view, same_views, up
from waiting import expect, expect_that, until

SEEDS = (1, 2, 3)
STEPS = 250
# The seconds for 65,536 rows, with an unproved program on a busy machine.
LONG = 400
# How many groups are told as atoms, and how many lines are sent at once.
MOST_ATOMS = 65_536
AT_ONCE = 1_024
GROUPS = (
    ("printers", "printers"),
    ("scanners", "scanners"),
    ('<<"b">>', "#b:b"),
    ("{w,1}", "#x:680277017761" + "01"),
    ('"str"', "#x:6b0003737472"),
    ("7", "#x:6107"),
    ("#{k=>1}", "#x:740000000177016b6101"),
)


def linked(field, *options, stock="a@127.0.0.1", **rest):
    """A stock node that has dialled a pg_node."""
    node = field.worker(*options, **rest)
    other = field.stock(stock)
    other.connect(node.name)
    up(node, other.name)
    return other, node


@case
def stock_node_dials(field):
    """A stock node dials, and each side lists the members of the other, those of before
    the link, too."""
    field.epmd()
    node = field.worker()
    first = new_pid(node)
    asked(node, f"join jobs printers {first}")
    stock = field.stock("a@127.0.0.1")
    second = stock.member()
    stock.connect(node.name)
    up(node, stock.name, "otp_hidden")
    stock.await_members([first, second])
    await_members(node, [first, second], "printers", "jobs")
    expect_that(node.ask("monitor jobs printers").startswith("ref "), "a monitor", "another answer")
    third = stock.member(name="Q")
    await_members(node, [first, second, third], "printers", "jobs")
    node.told(r"! join \d+ printers 1 " + third.replace(".", r"\."))


@case
def stock_node_is_dialled(field):
    """A pg_node dials a stock node, and each side lists the members of the other."""
    stock = field.stock("a@127.0.0.1")
    first = stock.member()
    node = field.worker(*field.dial(stock), listen=False, epmd=False)
    up(node, stock.name, "otp_hidden")
    await_members(node, [first], "printers", "jobs")
    second = new_pid(node)
    asked(node, f"join jobs printers {second}")
    stock.await_members([first, second])
    expect("what the status has", True, " links=1/64 otp_links=1 " in node.ask("status"))


@case
def joins_and_leaves(field):
    """Lists, repeats, a leave of more than are members, an exit, a join of nobody, groups of each
    kind, and the end of a worker's connection."""
    field.epmd()
    stock, node = linked(field)
    first = stock.member()
    await_members(node, [first], "printers", "jobs")
    stock.ask(
        'pg:join(jobs, printers, [P, P]), pg:join(jobs, <<"bin">>, P), '
        "pg:join(jobs, {worker, 1}, P), pg:join(jobs, empty, [])"
    )
    await_members(node, [first] * 3, "printers", "jobs")
    for group in ("#b:bin", "#x:68027706776f726b65726101"):
        await_members(node, [first], group, "jobs")
    own = new_pid(node)
    asked(node, f"join jobs #b:bin {own} {own}")
    asked(node, f"join jobs #x:68027706776f726b65726101 {own}")
    stock.await_members([first, own, own], '<<"bin">>')
    stock.await_members([first, own], "{worker, 1}")
    expect("no group of nobody", False, "empty" in node.ask("groups jobs"))
    stock.ask(
        "Q = spawn(fun ctl:member/0), pg:join(jobs, printers, Q), "
        "pg:leave(jobs, printers, [P, Q, P, P, P, P])"
    )
    await_members(node, [], "printers", "jobs")
    stock.ask("pg:leave(jobs, nobody, [P]), pg:leave(jobs, [printers], P)")
    worker_that_ends(stock, node)
    stock.ask("exit(P, kill)")
    until(
        "no rows of a process that has ended",
        lambda: [row for row in pg_view(node) if first in row],
        lambda came: not came,
    )
    asked(node, f"exit {own}")
    same_views("nobody is left", stock, node)
    expect("no rows", [], pg_view(node))


def worker_that_ends(stock, node):
    """That a worker is listed at the stock node until its connection is closed."""
    client = node.control()
    worker = new_pid(client)
    asked(client, f"join jobs printers {worker} {worker}")
    stock.await_members([worker, worker])
    client.close()
    stock.await_members([])


@case
def scopes_end_and_begin(field):
    """The scope of a stock node is killed and begins anew, one begins late, and one of the node
    ends and begins anew: all rows follow."""
    field.epmd()
    stock, node = linked(field)
    first = stock.member()
    await_members(node, [first], "printers", "jobs")
    stock.restart()
    await_members(node, [], "printers", "jobs")
    stock.ask("pg:join(jobs, printers, [P, P])")
    await_members(node, [first, first], "printers", "jobs")
    own = new_pid(node)
    asked(node, f"join jobs printers {own}")
    stock.await_members([first, first, own])
    asked(node, "stop jobs")
    stock.await_members([first, first])
    asked(node, "start jobs")
    asked(node, f"join jobs printers {own}")
    stock.await_members([first, first, own])
    await_members(node, [first, first, own], "printers", "jobs")
    asked(node, "start late")
    asked(node, f"join late g {own}")
    stock.ask("pg:start(late), pg:join(late, g, P)")
    await_members(node, [own, first], "g", "late")
    stock.await_members([own, first], "g", "late")
    stock.ask("pg:start(early), pg:join(early, g, P)")
    asked(node, "start early")
    await_members(node, [first], "g", "early")


def play(chance, stock, node, own, steps):
    """Random steps on both sides."""
    for step in range(steps):
        term, text = chance.choice(GROUPS)
        kind = chance.random()
        many = chance.choice((1, 1, 2, 3, 5))
        if chance.random() < 0.5:
            if kind < 0.05 or step < 3:
                stock.ask("put(ps, [spawn(fun ctl:member/0) | get(ps)])")
            elif kind < 0.08:
                stock.ask(
                    "case get(ps) of [] -> ok; _ -> (fun() -> "
                    "X = lists:nth(rand:uniform(length(get(ps))), get(ps)), "
                    "X ! stop, put(ps, lists:delete(X, get(ps))) end)() end"
                )
            else:
                word = "join" if kind < 0.55 else "leave"
                stock.ask(
                    f"case get(ps) of [] -> ok; _ -> pg:{word}(jobs, {term}, "
                    "[lists:nth(rand:uniform(length(get(ps))), get(ps)) "
                    f"|| _ <- lists:seq(1, {many})]) end"
                )
        elif kind < 0.05 or len(own) < 3:
            own.append(new_pid(node))
        elif kind < 0.08:
            asked(node, f"exit {own.pop(chance.randrange(len(own)))}")
        else:
            word = "join" if kind < 0.55 else "leave"
            processes = " ".join(chance.choice(own) for _ in range(many))
            answer = node.ask(f"{word} jobs {text} {processes}")
            expect_that(answer in ("ok", "refused 21 NotJoined"), "an answer to a step", answer)


@case
def random_steps(field):
    """Random steps on both sides at three seeds, also behind lost links and scopes that ended: both
    list the same, and no Leave of the stock node is refused."""
    field.epmd()
    stock, node = linked(field)
    for seed in SEEDS:
        chance = random.Random(seed)
        stock.ask(f"rand:seed(exsss, {seed}), put(ps, [])")
        own = []
        play(chance, stock, node, own, STEPS)
        same_views(f"seed {seed}", stock, node)
        stock.ask(f"erlang:disconnect_node('{node.name}'), timer:sleep(300)")
        stock.connect(node.name)
        same_views(f"seed {seed}, a lost link", stock, node)
        play(chance, stock, node, own, STEPS // 5)
        stock.restart()
        play(chance, stock, node, own, STEPS // 5)
        same_views(f"seed {seed}, the stock scope anew", stock, node)
        asked(node, "stop jobs")
        asked(node, "start jobs")
        play(chance, stock, node, own, STEPS // 5)
        rows = same_views(f"seed {seed}, the scope anew", stock, node)
        expect_that(rows > 0, "some rows", rows)
    refused = node.ask("refusals")
    expect_that(
        "NotListed" not in refused and "ForeignPid" not in refused,
        "no message of the stock node refused",
        refused,
    )


@case
def rows_up_to_the_limit(field):
    """4,096 rows of a stock node are listed; one more isn't, and as soon as one leaves the view is
    whole again. The log says so behind the link's end."""
    field.epmd()
    stock, node = linked(field)
    stock.ask("L = [spawn(fun ctl:member/0) || _ <- lists:seq(1, 4096)], ok")
    stock.ask("pg:join(jobs, big, L)")
    until("4,096 rows", lambda: len(members(node, "big", "jobs")), lambda came: came == 4096)
    one = stock.member("big")
    stock.ask(f"erlang:disconnect_node('{node.name}'), timer:sleep(300)")
    stock.connect(node.name)
    up(node, stock.name)
    stock.ask("pg:leave(jobs, big, hd(L)), length(pg:get_members(jobs, big))")
    until(
        "all rows after one has left",
        lambda: members(node, "big", "jobs"),
        lambda came: len(came) == 4096 and one in came,
    )
    own = new_pid(node)
    asked(node, f"join jobs big {own}")
    until(
        "a row of the node's own",
        lambda: stock.ask("length(pg:get_members(jobs, big))"),
        lambda came: came == "4097",
    )
    stock.ask(f"erlang:disconnect_node('{node.name}')")
    until("a line about too many rows", lambda: node.log("info otp_dropped reason=too_many_rows "))


@case
def rows_in_parts(field):
    """With `--links 2` 65,536 rows of a stock node are listed, and many of the node's own."""
    field.epmd()
    stock, node = linked(field, "--links", "2")
    stock.ask("L = [spawn(fun ctl:member/0) || _ <- lists:seq(1, 65536)], ok")
    stock.ask("pg:join(jobs, big, L), ok")
    until(
        "65,536 rows",
        lambda: len(members(node, "big", "jobs")),
        lambda came: came == 65_536,
        LONG,
        1,
    )
    own = [new_pid(node) for _ in range(20)]
    for _ in range(10):
        asked(node, f"join jobs own {' '.join(own * 30)}")
    until(
        "6,000 rows of the node",
        lambda: stock.ask("length(pg:get_members(jobs, own))"),
        lambda came: came == "6000",
        LONG,
    )
    stock.ask(f"erlang:disconnect_node('{node.name}'), timer:sleep(300)")
    stock.connect(node.name)
    until(
        "65,536 rows in one sync",
        lambda: len(members(node, "big", "jobs")),
        lambda came: came == 65_536,
        LONG,
        1,
    )
    until(
        "6,000 rows in one sync",
        lambda: stock.ask("length(pg:get_members(jobs, own))"),
        lambda came: came == "6000",
        LONG,
    )


@case
def rows_that_are_not_carried(field):
    """A group of a stock node whose name is too long isn't listed, and the others are; the log says
    so behind the link's end."""
    field.epmd()
    stock, node = linked(field)
    first = stock.member()
    stock.ask("pg:join(jobs, list_to_binary(lists:duplicate(300, $a)), P)")
    await_members(node, [first], "printers", "jobs")
    last = stock.member("last", name="Q")
    await_members(node, [last], "last", "jobs")
    expect("the groups", "groups last printers", node.ask("groups jobs"))
    stock.ask(f"erlang:disconnect_node('{node.name}')")
    until(
        "a line about rows that aren't carried",
        lambda: node.log("info otp_dropped reason=unheard "),
    )


@case
def too_many_atoms(field):
    """65,536 groups are told as atoms; rows of one more aren't, which is warned of, and those of
    groups that were told, or are no atoms, still are."""
    field.epmd()
    stock, node = linked(field)
    control = field.control(node)
    own = new_pid(control)
    for begin in range(0, MOST_ATOMS, AT_ONCE):
        lines = [
            f"{word} jobs g{number:05} {own}"
            for number in range(begin, begin + AT_ONCE)
            for word in ("join", "leave")
        ]
        control.socket.sendall("".join(f"{line}\n" for line in lines).encode())
        expect("the answers", {"ok"}, {control.next_answer("an answer", LONG) for _ in lines})
    expect("warnings", [], node.log("warn too_many_atoms "))
    asked(control, f"join jobs last {own}")
    until("a warning", lambda: node.log("warn too_many_atoms "))
    asked(control, f"join jobs g00000 {own}")
    asked(control, f"join jobs #b:last {own}")
    stock.await_members([own], '<<"last">>')
    expect(
        "the groups at the stock node",
        '[g00000,<<"last">>]',
        stock.ask("lists:sort(pg:which_groups(jobs))"),
    )
