"""Lines of a node's clients, written from a seed: calls, queries and monitors."""

from history import Monitor, MonitorScope
from peers import COOKIES, GROUPS, PEERS, SCOPES, Peers
from texts import pid_text


class Callers(Peers):
    """Each method of a theme says a line or a few of a client's."""

    def restart(self):
        """A restart, and at times a question after what was before it."""
        refs = self.refs()
        self.say("restart")
        if refs and self.chance(50):
            self.say("updates", self.one_of(refs))
        if self.chance(30):
            self.take()

    def cookie(self):
        self.say("cookie", self.one_of(COOKIES))

    def cookie_for(self):
        self.say("cookie_for", self.one_of(PEERS + (self.opening.name,)), self.one_of(COOKIES))

    def allow(self):
        if self.chance(15):
            self.say("allow")
        else:
            self.say(
                "allow",
                *self.rng.sample(PEERS + ("d@h", self.opening.name), self.rng.randint(2, 5)),
            )

    def start(self):
        self.say("start", self.one_of(SCOPES))

    def stop(self):
        self.say("stop", self.scope())

    def spawn(self):
        self.say("spawn")

    def own_pid(self):
        """A process, mostly one that lives; one is spawned first where none lives, mostly."""
        if not self.model.living(self.h) and self.chance(80):
            self.spawn()
        living = [
            pid
            for number in range(1, self.model.spawned(self.h) + 1)
            if self.model.lives(self.h, pid := self.model.new_pid(self.h)._replace(number=number))
        ]
        if living and self.chance(85):
            return self.one_of(living)
        pid = self.model.new_pid(self.h)._replace(
            number=self.rng.randint(1, self.model.spawned(self.h) + 1)
        )
        return self.one_of(
            (
                pid,
                pid._replace(creation=1),
                pid._replace(name="a@h"),
                pid._replace(number=2**64 - 1),
                pid._replace(number=0),
            )
        )

    def own_pids(self):
        return [pid_text(self.own_pid()) for _ in range(self.one_of((0, 1, 1, 1, 2, 2, 3)))]

    def exit(self):
        self.say("exit", pid_text(self.own_pid()))

    def join(self):
        self.say("join", self.scope(), self.one_of(GROUPS), *self.own_pids())

    def leave(self):
        """Takes processes out of a group, mostly such as are in it."""
        scope = self.scope()
        if not self.model.own(self.h, scope) and self.chance(70):
            self.say("join", scope, self.one_of(GROUPS), pid_text(self.own_pid()))
        rows = sorted(self.model.own(self.h, scope))
        if not rows or self.chance(15):
            self.say("leave", scope, self.one_of(GROUPS), *self.own_pids())
            return
        group, pid = self.one_of(rows)
        self.say(
            "leave",
            scope,
            group,
            *[pid_text(pid)] * self.one_of((1, 1, 1, 2)),
            *(self.own_pids() if self.chance(30) else []),
        )

    def group(self, scope):
        """A group, mostly one that has members."""
        groups = self.model.groups(self.h, scope)
        return self.one_of(groups) if groups and self.chance(75) else self.one_of(GROUPS)

    def members(self):
        scope = self.scope()
        self.say(self.one_of(("members", "members", "local_members")), scope, self.group(scope))

    def groups(self):
        self.say(self.one_of(("groups", "local_groups")), self.scope())

    def monitor(self):
        if self.chance(40):
            self.say("monitor_scope", self.scope())
        else:
            scope = self.scope()
            self.say("monitor", scope, self.group(scope))

    def ref(self):
        """The number of a monitor, mostly one of the seat that asks, which is made first where
        there is none."""
        if not self.refs() and self.chance(80):
            self.monitor()
        refs = self.refs()
        untold = [ref for ref in refs if self.model.updates(self.h, self.console.seat, ref)]
        if untold and self.chance(70):
            return self.one_of(untold)
        return (
            self.one_of(refs)
            if refs and self.chance(90)
            else self.rng.randint(0, self.h.number + 1)
        )

    def refs(self):
        made = [
            entry.number
            for entry in self.console.entries
            if isinstance(entry.event, (Monitor, MonitorScope))
        ]
        return [ref for ref in made if self.model.monitor(self.h, self.console.seat, ref)]

    def demonitor(self):
        self.say("demonitor", self.ref())

    def updates(self):
        self.say("updates", self.ref())

    def updates_of_another(self):
        """Another seat asks for what a monitor has to tell, and then its own seat does."""
        ref, seat = self.ref(), self.console.seat
        self.say("seat", seat + 1 if seat < 5 else 0)
        self.say("updates", ref)
        self.say("seat", seat)
        self.say("updates", ref)

    def seat(self):
        self.say("seat", self.one_of((0, 0, 1, 2, 4_294_967_295)))

    def audit(self):
        self.say(
            *self.one_of(
                (
                    ("size",),
                    ("audit", self.rng.randint(0, self.h.number + 1)),
                    ("audit", self.h.number),
                )
            )
        )
