"""What is the node's own: its creation, its cookies, whom it allows, its scopes, its processes and
their memberships."""

from history import (
    Allow,
    Begin,
    Exit,
    Join,
    Leave,
    Restart,
    SetCookie,
    SetCookieFor,
    Spawn,
    StartScope,
    StopScope,
    looks_back,
)
from texts import Pid


class Admission:
    @looks_back
    def creation(self, h):
        match h.said:
            case Begin():
                return h.opening.creation
            case Restart():
                return self.creation(h.past) + 1
            case _:
                return self.creation(h.past)

    @looks_back
    def own_cookie(self, h):
        match h.said:
            case Begin() | Restart():
                return h.opening.cookie
            case SetCookie(cookie):
                return cookie
            case SetCookieFor(name, cookie) if name == h.opening.name:
                return cookie
            case _:
                return self.own_cookie(h.past)

    @looks_back
    def peer_cookies(self, h):
        """The peers with a cookie of their own, each with it."""
        match h.said:
            case Begin() | Restart():
                return {}
            case SetCookieFor(name, cookie) if name != h.opening.name:
                return {**self.peer_cookies(h.past), name: cookie}
            case _:
                return self.peer_cookies(h.past)

    def cookie(self, h, name):
        return self.peer_cookies(h).get(name, self.own_cookie(h))

    @looks_back
    def allow_list(self, h):
        match h.said:
            case Begin() | Restart():
                return frozenset()
            case Allow(names):
                return self.allow_list(h.past) | set(names)
            case _:
                return self.allow_list(h.past)

    def allowed(self, h, name):
        names = self.allow_list(h)
        return not names or name in names


class Own:
    @looks_back
    def running_scopes(self, h):
        match h.said:
            case Begin() | Restart():
                return frozenset()
            case StartScope(scope):
                return self.running_scopes(h.past) | {scope}
            case StopScope(scope):
                return self.running_scopes(h.past) - {scope}
            case _:
                return self.running_scopes(h.past)

    def is_running(self, h, scope):
        return scope in self.running_scopes(h)

    @looks_back
    def spawned(self, h):
        match h.said:
            case Begin() | Restart():
                return 0
            case Spawn():
                return self.spawned(h.past) + 1
            case _:
                return self.spawned(h.past)

    @looks_back
    def exited(self, h):
        match h.said:
            case Begin() | Restart():
                return frozenset()
            case Exit(pid):
                return self.exited(h.past) | {pid}
            case _:
                return self.exited(h.past)

    def living(self, h):
        return self.spawned(h) - len(self.exited(h))

    def is_local(self, h, pid):
        return pid.name == h.opening.name and pid.creation == self.creation(h)

    def lives(self, h, pid):
        return (
            self.is_local(h, pid)
            and 1 <= pid.number <= self.spawned(h)
            and pid not in self.exited(h)
        )

    def new_pid(self, h):
        return Pid(h.opening.name, self.creation(h), self.spawned(h) + 1)

    @looks_back
    def joined(self, h, scope):
        """How often each process is joined to each group, as a dictionary of rows."""
        match h.said:
            case Begin() | Restart():
                return {}
            case StartScope(started) if started == scope:
                return {}
            case Exit(pid):
                return without(self.joined(h.past, scope), pid)
            case Join(where, group, pids) if where == scope:
                return more(self.joined(h.past, scope), in_group(group, pids))
            case Leave(where, group, pids) if where == scope:
                return less(self.joined(h.past, scope), in_group(group, pids))
            case _:
                return self.joined(h.past, scope)

    def own(self, h, scope):
        return self.joined(h, scope) if self.is_running(h, scope) else {}


def in_group(group, pids):
    return [(group, pid) for pid in pids]


def more(rows, mentioned):
    """The rows, and one more for each mention."""
    result = dict(rows)
    for row in mentioned:
        result[row] = result.get(row, 0) + 1
    return result


def less(rows, mentioned):
    """The rows, and one less for each mention, as far as there are any."""
    result = dict(rows)
    for row in mentioned:
        if result.get(row, 0) > 1:
            result[row] -= 1
        else:
            result.pop(row, None)
    return result


def without(rows, pid):
    return {row: count for row, count in rows.items() if row[1] != pid}


def spelled(rows):
    """The rows one by one, ascending, each as often as it is counted."""
    return tuple(row for row in sorted(rows) for _ in range(rows[row]))


def taken_away(before, after):
    """The rows that there were more of before."""
    return {
        row: count - after.get(row, 0) for row, count in before.items() if count > after.get(row, 0)
    }
