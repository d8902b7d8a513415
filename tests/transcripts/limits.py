"""Long transcripts that meet a limit and pass it by one, each as the lines of a script
and its answers."""

ROW = "01670003614068000000050000000000000001"  # the group `g` and the process `a@h/5/1`


def allow_limit():
    """1,024 names are allowed, and no other."""
    yield "allow" + "".join(f" n{i}@h" for i in range(1024)), "ok"
    yield "allow n3@h new@h", "refused 30 AllowFull"
    yield "allow n1023@h n0@h n7@h", "ok"


def cookie_limit():
    """1,024 peers have a cookie of their own, and no other; the own name isn't counted."""
    for i in range(1024):
        yield f"cookie_for n{i}@h c", "ok"
    yield "cookie_for new@h c", "refused 31 CookiesFull"
    yield "cookie_for n5@h d", "ok"
    yield "cookie_for b@h d", "ok"


def local_row_limit():
    """A scope has 4,096 own rows, and no more."""
    yield "start pg", "ok"
    yield "spawn", "pid b@h/4/1"
    yield "join pg g" + " b@h/4/1" * 4095, "ok"
    yield "join pg g b@h/4/1 b@h/4/1", "refused 18 RowsFull"
    yield "members pg g", "pids" + " b@h/4/1" * 4095
    yield "join pg g b@h/4/1", "ok"
    yield "join pg g b@h/4/1", "refused 18 RowsFull"


def process_limit():
    """65,536 processes live, and no more. One that ends makes room."""
    for number in range(1, 65_537):
        yield "spawn", f"pid b@h/4/{number}"
    yield "spawn", "refused 29 PidsFull"
    yield "exit b@h/4/1", "ok"
    yield "spawn", "pid b@h/4/65537"


def remote_row_limit():
    """A peer has 4,096 rows in a scope, and no more; nor has a message."""
    yield "opened 123", "link 1"
    yield "frame 1 4e0000000001000001000000050003614068", "ok"
    yield "frame 1 7200000001482c811da5d5b4bc6d497ffa98491e38", "up a@h 5 visible"
    yield "start pg", "ok"
    yield rows("53", 4095), "ok"
    yield rows("4a", 2), "refused 18 RowsFull"
    yield "members pg g", "pids" + " a@h/5/1" * 4095
    yield rows("4a", 1), "ok"
    yield rows("4a", 1), "refused 18 RowsFull"
    yield rows("53", 4097), "refused 3 BadFrame"
    yield rows("53", 4096), "ok"


def rows(kind, count):
    """A frame on link 1 of this kind, a Sync or a Join of the scope `pg`, with so many rows."""
    return f"frame 1 {kind}027067{count:08x}" + ROW * count


ALL = (allow_limit, cookie_limit, local_row_limit, process_limit, remote_row_limit)
