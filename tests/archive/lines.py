"""Reads an archive without a word of the program's, and holds it beside the run
that it tells of."""

import json
from collections import Counter

# The event that each command asks for, and the fields of its arguments; the last of a
# list is a list.
EVENTS = {
    "restart": ("Restart", []),
    "cookie": ("SetCookie", []),
    "cookie_for": ("SetCookieFor", ["peer"]),
    "allow": ("Allow", [["names"]]),
    "start": ("StartScope", ["scope"]),
    "stop": ("StopScope", ["scope"]),
    "spawn": ("Spawn", []),
    "exit": ("Exit", ["pid"]),
    "join": ("Join", ["scope", "group", ["pids"]]),
    "leave": ("Leave", ["scope", "group", ["pids"]]),
    "members": ("Members", ["scope", "group"]),
    "local_members": ("LocalMembers", ["scope", "group"]),
    "groups": ("Groups", ["scope"]),
    "local_groups": ("LocalGroups", ["scope"]),
    "monitor": ("Monitor", ["scope", "group"]),
    "monitor_scope": ("MonitorScope", ["scope"]),
    "demonitor": ("Demonitor", ["ref"]),
    "updates": ("Updates", ["ref"]),
    "dial": ("Dial", ["peer", "challenge"]),
    "opened": ("Opened", ["challenge"]),
    "lost": ("Lost", ["link"]),
    "take": ("Take", ["link"]),
    "disconnect": ("Disconnect", ["peer"]),
    "frame": ("Frame", ["link", "body"]),
}
NUMBERS = ("ref", "challenge", "link")
LIFE = ["life", "hidden", "creation", "entries", "links"]


def arguments_of(fields, words):
    """The fields that these words say."""
    said = {}
    for field in fields:
        if isinstance(field, list):
            said[field[0]], words = words, []
        else:
            said[field] = int(words[0]) if field in NUMBERS else words[0]
            words = words[1:]
    if "body" in said:
        said["body"] = said["body"].lower()
    return said


def counted(pids):
    return [str(len(pids)), *pids]


def answer_of(reply):
    """The answer line of a reply."""
    match reply:
        case {"ok": True}:
            return "ok"
        case {"pid": pid}:
            return f"pid {pid}"
        case {"link": link}:
            return f"link {link}"
        case {"up": peer, "creation": creation, "visible": visible}:
            return f'up {peer} {creation} {"visible" if visible else "hidden"}'
        case {"ref": ref, "pids": pids}:
            return " ".join(["ref", str(ref), *pids])
        case {"ref": ref, "groups": groups}:
            return " ".join(
                ["ref", str(ref)]
                + [word for some in groups for word in [some["group"], *counted(some["pids"])]]
            )
        case {"pids": pids}:
            return " ".join(["pids", *pids])
        case {"groups": groups}:
            return " ".join(["groups", *groups])
        case {"updates": updates}:
            return " ".join(
                ["updates"]
                + [
                    word
                    for some in updates
                    for word in [
                        "leave" if some["leave"] else "join",
                        some["group"],
                        *counted(some["pids"]),
                    ]
                ]
            )
        case {"out": frames}:
            return " ".join(["out", *(frame["body"] for frame in frames)])
    raise ValueError(f"no reply: {reply}")


def verdict_of(entry):
    """The answer line of an entry."""
    if entry["verdict"] == "accepted":
        return answer_of(entry["reply"])
    return f'{entry["verdict"]} {entry["rule"]} {entry["name"]}'


class Listing:
    """What the changes of an archive make of each group."""

    def __init__(self):
        self.pids = {}

    def take(self, entry):
        for change in entry["change"]:
            for some in change["groups"]:
                held = self.pids.setdefault((change["scope"], some["group"]), Counter())
                held.subtract(some["left"])
                held.update(some["joined"])
                if min(held.values(), default=0) < 0:
                    raise ValueError(f'entry {entry["entry"]} takes away a row that isn\'t there')

    def members(self, scope, group):
        return sorted(self.pids.get((scope, group), Counter()).elements())


def answered(script, answers):
    """The lines of a run that say a command, each with its answer, up to the first fault."""
    for line, answer in zip((line for line in script if line != "" and line[0] != "#"), answers):
        if answer.startswith("fault line"):
            return
        yield line, answer


def spoken(script, answers):
    """The entries of a run: the seat, the event, its arguments and the answer of each."""
    seat, entries = 0, []
    for line, answer in answered(script, answers):
        word, *words = line.split(" ")
        if word == "seat":
            seat = int(words[0])
        if word in EVENTS and answer not in ("refused 1 EntriesFull", "memory"):
            event, fields = EVENTS[word]
            entries.append((seat, event, arguments_of(fields, words), answer))
    return entries


def fault(archive, script, answers):
    """What is wrong with the archive of a run, if something is."""
    life, *entries = [json.loads(line) for line in archive.splitlines()]
    if list(life) != LIFE:
        return f"the life begins with {life}"
    wanted, listing = spoken(script, answers), Listing()
    if len(entries) != len(wanted):
        return f"{len(entries)} entries of {len(wanted)}"
    for number, (entry, (seat, event, arguments, answer)) in enumerate(zip(entries, wanted), 1):
        told = {"entry": number, "seat": seat, "event": event, **arguments}
        listing.take(entry)
        if {key: entry[key] for key in told if key in entry} != told or verdict_of(entry) != answer:
            return f"entry {number}: {json.dumps(entry)[:200]} for {told}, {answer[:80]}"
        if (
            event == "Members"
            and answer.startswith("pids")
            and sorted(answer.split(" ")[1:]) != listing.members(*arguments.values())
        ):
            return (
                f"entry {number}: the changes before it list {listing.members(*arguments.values())}"
            )
    return None
