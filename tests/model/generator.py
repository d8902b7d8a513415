"""Writes scripts from a seed. Each line is chosen from what the model says of the lines before it,
so that most are accepted."""

from random import Random

from callers import Callers
from faults import FAULTS
from frames import Discover, Down, Sync, bodies_of, message_body, part_body
from history import Opening
from limits import LIMITS
from peers import GROUPS, SCOPES
from script import MOST_ENTRIES
from texts import pid_text
from themes import BEHIND_A_BURST, BETWEEN_PARTS, THEMES

# Every so many scripts one has a burst, and another one meets a limit.
PERIOD = 40


class Generator(Callers):
    """Each method of a theme says a line or a few."""

    def opened(self):
        self.say("opened", self.challenge())

    def dial(self):
        self.say("dial", self.peer() if self.chance(95) else self.opening.name, self.challenge())

    def frame(self, link, body):
        text = body.hex()
        self.say("frame", link, text.upper() if self.chance(5) else text)

    def link(self, is_up=None):
        """An open link, of which the handshake is whole or not where that is said, or None."""
        links = [
            link
            for link in self.model.open_links(self.h)
            if is_up in (None, self.model.is_whole(self.h, link))
        ]
        visible = [
            link
            for link in links
            if self.model.is_up(self.h, link) and self.model.is_visible(self.h, link)
        ]
        if is_up and visible and self.chance(95):
            return self.one_of(visible)
        return self.one_of(links) if links else None

    def advance(self):
        """The next right frame of an unfinished handshake."""
        if (link := self.link(is_up=False)) is None:
            return self.opened()
        self.frame(link, self.right_frame(link))

    def handshake(self):
        """Opens or dials a link, and brings it up, mostly."""
        self.one_of((self.opened, self.dial))()
        link = self.h.number
        while (
            self.model.is_open(self.h, link)
            and not self.model.is_whole(self.h, link)
            and self.chance(97)
        ):
            self.frame(link, self.right_frame(link))
            if self.model.is_full(self.h):
                break
            if self.chance(15):
                self.say("take", link)
        return link

    def wrong(self):
        if (link := self.link()) is not None:
            self.frame(link, self.wrong_frame(link))

    def broken(self):
        if (link := self.link()) is not None:
            self.frame(link, self.broken_frame(link))

    def frame_of_no_link(self):
        self.frame(
            self.rng.randint(0, self.h.number + 1), self.one_of((self.name_frame(), b"sok", b"\0"))
        )

    def message(self):
        if (link := self.link(is_up=True)) is None:
            return self.handshake()
        self.frame(link, self.right_frame(link))

    def wrong_message(self):
        if (link := self.link(is_up=True)) is not None:
            self.frame(link, self.wrong_frame(link))

    def exchange(self):
        """Tells and hears a peer in a scope at once."""
        if (link := self.link(is_up=True)) is None:
            return self.handshake()
        scope = self.scope(95)
        self.send(link, Discover(scope))
        self.send(link, Sync(scope, ()))

    def send(self, link, message):
        for body in bodies_of(self.model.version(self.h, link), message):
            self.frame(link, body)

    def parts(self):
        """A message in parts, and at times something else between two of them."""
        if (link := self.link(is_up=True)) is None:
            return self.handshake()
        if self.model.version(self.h, link) == 1:
            return self.message()
        for part in self.cut_message(link):
            self.frame(link, part_body(part))
            if not part.last and self.chance(40):
                self.between_parts(link, part)

    def between_parts(self, link, part):
        """Says something between two parts of a message, on the same link or beside it."""
        match self.one_of(BETWEEN_PARTS):
            case "discover":
                self.frame(link, message_body(Discover(self.one_of((part.scope, self.scope())))))
            case "down":
                self.frame(link, message_body(Down(self.one_of((part.scope, self.scope())))))
            case "stopped":
                self.stop_between(self.one_of((part.scope, self.scope())))
            case "another_part":
                self.frame(link, part_body(self.changed_part(part)))
            case "refused_part":
                self.frame(link, part_body(part._replace(rows=(self.foreign_row(link),))))
            case action:
                getattr(self, action)()

    def stop_between(self, scope):
        self.say("stop", scope)
        if self.chance(70):
            self.say("start", scope)

    def changed_part(self, part):
        """A part of another message, or another place of the same one."""
        return self.one_of(
            (
                part._replace(kind=Sync),
                part._replace(scope=self.scope()),
                part._replace(number=1),
                part._replace(last=True),
                part._replace(number=part.number + 2),
            )
        )

    def told_scopes(self):
        """Tells a peer of some scopes, and joins one process in each of them, in any order;
        mostly it exits."""
        if (link := self.link(is_up=True)) is None:
            return self.handshake()
        scopes = self.rng.sample(SCOPES, self.one_of((2, 2, 3)))
        for scope in scopes:
            self.tell_of(link, scope)
        pid = pid_text(self.own_pid())
        for scope in self.rng.sample(scopes, len(scopes)):
            self.say("join", scope, self.one_of(GROUPS), *[pid] * self.one_of((1, 1, 2)))
        if self.chance(80):
            self.say("exit", pid)
        if self.chance(80):
            self.say("take", link)

    def tell_of(self, link, scope):
        """Lets a peer discover a scope that runs, where it hasn't yet."""
        if not self.model.is_running(self.h, scope):
            self.say("start", scope)
        if not self.model.tells(self.h, link, scope):
            self.frame(link, message_body(Discover(scope)))

    def told_link(self, scope):
        """A link that comes up, is told of a scope and states rows there, mostly."""
        link = self.handshake()
        if self.model.is_up(self.h, link):
            self.tell_of(link, scope)
            self.send(link, Sync(scope, self.peer_rows(link, 0, 3)))
        if self.chance(60):
            self.say("take", link)

    def burst(self):
        """Tells some links of about as many joins as end them, and then whatever may end those
        that are left."""
        scope, group, pid = self.scope(100), self.one_of(GROUPS), self.say("spawn").split()[-1]
        for _ in range(self.one_of((1, 2, 2, 3))):
            self.told_link(scope)
        if self.chance(70):
            self.monitor()
        for _ in range(self.rng.randint(1020, 1030)):
            self.say("join", scope, group, pid)
            if self.chance(0.05):
                self.take()
        for action in self.rng.choices(BEHIND_A_BURST, k=20):
            getattr(self, action)()

    def some_link(self):
        """A link, mostly one that is kept."""
        kept = [link for link in self.model.links(self.h) if self.model.is_kept(self.h, link)]
        return (
            self.one_of(kept)
            if kept and self.chance(90)
            else self.rng.randint(0, self.h.number + 1)
        )

    def take(self):
        self.say("take", self.some_link())

    def lost(self):
        self.say("lost", self.some_link())

    def disconnect(self):
        self.say("disconnect", self.peer())


def opening_of(rng):
    """A node for a script: mostly a usual one, at times near its last creation or entry."""
    creation = rng.choice((1, 1, 4, 7, 0, 4_294_967_294, 4_294_967_295))
    entries = rng.choice((10, 25, 60)) if rng.random() < 0.06 else MOST_ENTRIES
    links = 1 if rng.random() < 0.4 else 2
    return Opening(
        rng.choice(("b@h", "m@h", "b@h")),
        rng.choice(("password", "secret")),
        rng.random() < 0.06,
        creation,
        entries,
        links,
    )


def write(writer, rng, length):
    """Writes lines of a theme, at least so many."""
    theme = rng.choice(THEMES)
    actions, weights = list(theme), list(theme.values())
    while len(writer.lines) < length:
        getattr(writer, rng.choices(actions, weights)[0])()


def of_theme(rng, title):
    """A script of 30 to 150 lines, and at times one that ends with a fault."""
    writer = Generator(rng, opening_of(rng))
    write(writer, rng, rng.randint(30, 130))
    if writer.chance(5):
        for number in range(writer.h.number + 1):
            writer.say("audit", number)
    if writer.chance(15):
        writer.say(rng.choice(FAULTS))
        writer.say("size")
    return writer.script(title, writer.chance(10))


def with_burst(rng, title):
    """A script of a theme that ends with a burst."""
    writer = Generator(rng, opening_of(rng)._replace(most_entries=MOST_ENTRIES))
    write(writer, rng, rng.randint(0, 60))
    writer.burst()
    return writer.script(title)


class Filler(Generator):
    """Says many lines between others that are refused, and entries: pages of entries are handed
    out meanwhile."""

    def say(self, *words):
        if self.chance(6):
            for _ in range(self.rng.randint(20, 150)):
                super().say("take", 0)
        return super().say(*words)


def of_many_pages(seed, number):
    """A script of more entries than a page, with questions for some of them."""
    rng = Random(f"{seed}/pages/{number}")
    writer = Filler(rng, opening_of(rng)._replace(most_entries=MOST_ENTRIES))
    write(writer, rng, 900)
    for entry in rng.sample(range(writer.h.number + 1), 40):
        writer.say("audit", entry)
    for _ in range(20):
        writer.updates()
    return writer.script(f"seed {seed}, script {number} of many pages")


def script_of(seed, number):
    """The script of a seed with a number; now and then one with a burst, or one that
    meets a limit."""
    rng, title = Random(f"{seed}/{number}"), f"seed {seed}, script {number}"
    if number % PERIOD == 27:
        return with_burst(rng, title)
    if number % PERIOD == 7 and number // PERIOD < len(LIMITS):
        return LIMITS[number // PERIOD](rng, title)
    return of_theme(rng, title)
