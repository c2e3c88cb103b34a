"""Histories and their actions, event by event, for the tools that show them."""
import re
import sys

from run_program import run_program

# What tells the client of each action's object, by the action's first word, or by the kind of an ignored frame.
TELLING = {"alternatives": "value", "altsvc": "value", "origins": "origins", "origin": "origins", "close": "close"}


class Event:
    """An event line, the actions of its step, and which connections may carry an origin behind it, where that is known."""

    def __init__(self, number, text):
        self.number, self.text = number, text.replace("\t", " ")
        words = self.text.split(" ")
        self.moment, self.kind, self.fields = words[0], (words[1:] or [""])[0], words[2:]
        self.actions, self.carriers = [], None


def events_of(text):
    lines = enumerate(text.split("\n"), 1)
    return [Event(number, line) for number, line in lines if line and not line.startswith("#")]


def origins_of(events):
    """Returns the origins that requests are for."""
    return list(dict.fromkeys(event.fields[1] for event in events if event.kind == "request" and len(event.fields) == 2))


def run_events(text, events):
    """Runs the program, and asks behind each event who may carry what; the last question tells where its actions end."""
    end, lines = "who https://end-of-step.invalid", text.split("\n")
    given, numbers, counts = [], [], []
    for index, event in enumerate(events):
        asked = [*(f"who {origin}" for origin in origins_of(events[: index + 1])), end]
        given += [lines[event.number - 1], *(f"{event.moment} {line}" for line in asked)]
        numbers += [event.number] * (len(asked) + 1)
        counts.append(len(asked) - 1)
    _, written = run_program(("replay",), "".join(f"{line}\n" for line in given).encode("utf-8", "surrogateescape"))
    rest = written.decode().splitlines()
    for event, count in zip(events, counts):
        if f"{end} none" not in rest:
            event.actions = [re.sub(r"^refused (\d+)", lambda it: f"refused {numbers[int(it[1]) - 1]}", line) for line in rest]
            return
        told = rest[: rest.index(f"{end} none")]
        rest = rest[len(told) + 1 :]
        event.actions = told[: len(told) - count]
        event.carriers = {line.split()[1]: line.split()[2:] for line in told[len(event.actions) :]}


class Placing:
    """Which events can have an action, by what is known so far of requests, attempts and the octets that came."""

    def __init__(self):
        self.waiting, self.origin, self.pending, self.sent = [], {}, {}, []
        self.octets, self.told, self.made = {}, [], []

    def come(self, event):
        self.sent, self.told = [], []
        if event.kind == "request":
            self.waiting.append(event.fields[0])
            self.origin[event.fields[0]] = event.fields[1]
        elif event.kind in ("opened", "failed"):
            self.pending.pop(event.fields[0], None)
        elif event.kind == "response" and " alt-svc:" in event.text.lower():
            self.told = ["value"]
        elif event.kind == "input" and len(event.fields) == 2:
            self.told = self.frames(event.fields[0], bytes.fromhex(event.fields[1]))
        elif event.kind in ("announce", "offer", "withdraw"):
            self.made.append("origins" if event.kind == "announce" else "value")
        elif event.kind == "deliver" and len(event.fields) == 2 and event.fields[0].isdigit():
            self.told = self.made[int(event.fields[0]) - 1 :][:1] if event.fields[0] != "0" else []

    def frames(self, conn, octets):
        """Returns what the frames tell that some more octets of a connection end (RFC 9113 4.1)."""
        rest, told = self.octets.get(conn, b"") + octets, []
        while len(rest) >= 9 and len(rest) >= 9 + int.from_bytes(rest[:3], "big") <= 9 + 16384:
            told += {10: ["value"], 12: ["origins"]}.get(rest[3], [])
            rest = rest[9 + int.from_bytes(rest[:3], "big") :]
        self.octets[conn] = rest
        return told + ["close"] * (len(rest) >= 9 and int.from_bytes(rest[:3], "big") > 16384)

    def can(self, event, words):
        """Returns whether an event can have the action of these words."""
        if words[0] == "open":
            return any(self.origin[q] == words[2] for q in self.waiting + self.sent * (words[3] == "alt"))
        if words[0] == "send":
            return words[1] in self.waiting and words[3] not in self.pending
        if words[0] == "refuse":
            return words[1] in self.waiting and self.origin[words[1]] not in self.pending.values()
        if words[0] in ("retry", "field", "answered"):
            return event.kind == ("ask" if words[0] == "answered" else event.kind) and event.kind in ("response", "ask") and event.fields[0] == words[1]
        if words[0] == "message":
            return event.kind in ("announce", "offer", "withdraw")
        if words[0] == "lost":
            return event.kind in ("closed", "input")
        if words[0] in ("who", "stats"):
            return event.kind == words[0] and not event.actions
        if words[0] == "malformed":
            return event.kind == "answer" and not event.actions
        return self.told[:1] == [TELLING.get(words[2] if words[0] == "ignored" else words[0])]

    def act(self, words):
        if words[0] in ("alternatives", "field", "ignored", "origins", "close"):
            self.told = self.told[1:]
        if words[0] == "open":
            self.pending[words[1]] = words[2]
        elif words[0] in ("send", "refuse") and words[1] in self.waiting:
            self.waiting.remove(words[1])
            self.sent += [words[1]] * (words[0] == "send")
        elif words[0] == "retry":
            self.waiting.append(words[1])


def place_actions(actions, events):
    """Gives each action to the first event from the one before on that can have it."""
    placing, rest = Placing(), list(actions)
    for event in events:
        if rest and rest[0].startswith(f"refused {event.number} "):
            event.actions.append(rest.pop(0))
            break
        placing.come(event)
        while rest and placing.can(event, rest[0].split()):
            placing.act(rest[0].split())
            event.actions.append(rest.pop(0))
    if rest:
        sys.exit(f"no event can have the action: {rest[0]}")
