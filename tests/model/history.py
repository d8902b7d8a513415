"""Events, rules, answers, and the history of a node."""

from records import record

# `links` is the version of the link messages that the node knows, 1 or 2.
Opening = record("Opening", "name cookie hidden creation most_entries links", defaults=[1])

# What stands before the first entry, and the 24 kinds of events.
Begin = record("Begin")
Restart = record("Restart")
SetCookie = record("SetCookie", "cookie")
SetCookieFor = record("SetCookieFor", "name cookie")
Allow = record("Allow", "names")
StartScope = record("StartScope", "scope")
StopScope = record("StopScope", "scope")
Spawn = record("Spawn")
Exit = record("Exit", "pid")
Join = record("Join", "scope group pids")
Leave = record("Leave", "scope group pids")
Members = record("Members", "scope group")
LocalMembers = record("LocalMembers", "scope group")
Groups = record("Groups", "scope")
LocalGroups = record("LocalGroups", "scope")
Monitor = record("Monitor", "scope group")
MonitorScope = record("MonitorScope", "scope")
Demonitor = record("Demonitor", "ref")
Updates = record("Updates", "ref")
Dial = record("Dial", "name challenge")
Opened = record("Opened", "challenge")
Lost = record("Lost", "link")
Take = record("Take", "link")
Disconnect = record("Disconnect", "name")
Frame = record("Frame", "link body")

RULES = (
    "EntriesFull NoSuchLink BadFrame NoHandshake23 DynamicName BadName OwnName WrongName "
    "NotAllowed Simultaneous PeerSaid BadDigest HiddenLink NoScope NotHeard ForeignPid NotListed "
    "RowsFull NotLocal NoProcess NotJoined ScopeRunning NoMonitor LinkUp LinkPending NoLinkTo "
    "LinksFull ScopesFull PidsFull AllowFull CookiesFull CreationSpent PartOrder"
).split()

# The answers to accepted events.
Done = record("Done")
NewPid = record("NewPid", "pid")
NewLink = record("NewLink", "link")
Up = record("Up", "name creation visible")
Pids = record("Pids", "pids")
GroupList = record("GroupList", "groups")
Ref = record("Ref", "ref pids")
ScopeRef = record("ScopeRef", "ref groups")
UpdateList = record("UpdateList", "updates")
Out = record("Out", "bodies")

Entry = record("Entry", "number seat event rule answer")


class History:
    """An opening and the entries after it: the newest entry, and the history before it."""

    __slots__ = ("opening", "past", "entry", "number", "said", "memo")

    def __init__(self, opening, past=None, entry=None):
        self.opening, self.past, self.entry = opening, past, entry
        self.number = 0 if past is None else past.number + 1
        # the event of the newest entry where it was accepted
        self.said = Begin() if entry is None else entry.event if entry.rule is None else None
        self.memo = {}


UNSAID = object()


def looks_back(definition):
    """A definition over a history, which may ask for itself one entry earlier. What it says of each
    is kept, from the oldest on."""

    def says(model, history, *args):
        key = (definition, args)
        said = history.memo.get(key, UNSAID)
        if said is not UNSAID:
            return said
        unsaid, earlier = [history], history.past
        while earlier is not None and key not in earlier.memo:
            unsaid.append(earlier)
            earlier = earlier.past
        for earlier in reversed(unsaid):
            said = earlier.memo[key] = definition(model, earlier, *args)
        return said

    return says
