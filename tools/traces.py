"""Traces as runs: which packet each line of a trace tells of, and what both ends hold after it.

A trace says when a packet is sent, and what an end does with one that comes, but not always which
one that was. `read` finds it: by the number of the command, and where several packets have that
number, the oldest of them that hasn't come yet. With the script beside the trace the packets of
`deliver` and `cutin` are those that it names, and the events that write no line are known too:
cuts, starts of the manager, seconds.
"""
import re
from dataclasses import dataclass, field

LANES = ("high", "low")
UNIT_FIRST = ("carried", "kept", "held", "cut")
UNIT_MORE = ("snapshot", "alarms", "sealed", "committed", "leaving")
MANAGER_FIRST = ("took", "proved", "freed", "synced", "resync", "audited", "audit", "image", "busy",
                 "notice", "repeat", "gap", "overflow", "unaudited", "change", "checked")
MANAGER_MORE = ("copy", "row", "phase", "gave", "refused")
NOTICES = ("notice", "repeat", "gap", "overflow", "unaudited", "change")
NO_EVENT = re.compile(r"\s*(#.*)?\r?\Z", re.S)


class Fault(Exception):
    """What is wrong with the input."""


@dataclass
class Packet:
    """A packet of the trace: where it was sent, and the events in which it came."""
    number: int
    event: int
    down: bool
    tci: str
    kind: str
    text: str
    repeats: int | None = None
    came: list = field(default_factory=list)
    lost: bool = False

    @property
    def lane(self):
        """The packet's lane, by the top bit of its TCI."""
        return lane_of(self.tci)


@dataclass
class Step:
    """A line of the trace, or an event without one: the packet that came, the packet sent."""
    event: int
    words: list
    end: str
    came: Packet | None = None
    sent: Packet | None = None


def lane_of(tci):
    """The lane of four hexadecimal digits."""
    return LANES[int(tci, 16) < 0x8000]


def script_events(lines):
    """The events of a script, from the header on."""
    return [line.rstrip("\r\n") for line in lines if not NO_EVENT.match(line)]


def told_by(words, packet):
    """Whether the line tells of this notice: the same change, or the same number of alarms."""
    if words[0] == "change":
        return packet.text == " ".join(words)
    return packet.kind == "alarm" and int(packet.text[-2:], 16) == int(words[-1])


class Reader:
    """Follows a trace line by line."""

    def __init__(self, events):
        self.events = events
        self.packets = {}
        self.fresh = []
        self.waiting = dict.fromkeys(LANES)
        self.named = None
        self.steps = []

    def new_link(self):
        """What is on the link is lost where an end starts."""
        for packet in self.fresh:
            packet.lost = True
        self.fresh = []

    def choose(self, wanted):
        """The packet that comes: the one that the script names, the oldest fresh one that is
        wanted, or the last one that is."""
        if self.named is not None:
            return self.packets.get(self.named)
        fresh = [it for it in self.fresh if wanted(it)]
        if fresh:
            return fresh[0]
        known = [it for it in self.packets.values() if wanted(it) and not it.lost]
        return known[-1] if known else None

    def take(self, packet, event):
        """The packet came: those of its lane and direction that were sent before can't any more."""
        if packet is not None:
            packet.came.append(event)
            stays = []
            for other in self.fresh:
                if (other.down, other.lane) != (packet.down, packet.lane) \
                        or other.number > packet.number:
                    stays.append(other)
                else:
                    other.lost = not other.came
            self.fresh = stays
        return packet

    def reply(self, tci):
        """The reply to this command, if it can come."""
        return self.choose(lambda it: not it.down and it.tci == tci and it.kind.endswith("-r"))

    def began(self, event):
        """The event of the script that begins: what it does without a line."""
        self.named = None
        if event >= len(self.events):
            return
        words = self.events[event].split(" ")
        if words[0] in ("deliver", "cutin"):
            self.named = int(words[1])
        elif words[:2] == ["start", "olt"]:
            self.new_link()
            self.waiting = dict.fromkeys(LANES)
            self.steps.append(Step(event, words, "manager"))
        elif words[:2] in (["cut", "olt"], ["cut", "unit"]):
            end = "manager" if words[1] == "olt" else "unit"
            if not self.refused(event):
                self.steps.append(Step(event, words, end))

    def refused(self, event):
        """Whether the trace says that the event can't happen."""
        return event in self.not_enabled

    def came(self, words, last, rest):
        """The packet that this line tells of first, if it tells of one."""
        first, wanted = words[0], None
        if first in ("carried", "kept"):
            answer = next((it for it in rest if it[0] == "sent" and it[2] == "up"), None)
            if answer is None:
                return None
            return self.choose(lambda it: it.down and it.tci == answer[3])
        if first in ("held", "cut"):
            return self.choose(lambda it: it.down)
        if first == "dropped":
            return self.choose(lambda it: it in self.fresh)
        if first in ("took", "freed"):
            wanted = words[1]
        elif first == "proved":
            wanted = self.waiting[words[1]]
        elif first in NOTICES:
            return self.choose(lambda it: not it.down and told_by(words, it))
        elif first in MANAGER_FIRST:
            wanted = self.waiting["low"]
        elif first == "sent" and words[2] == "down" and last not in MANAGER_FIRST:
            waiting = self.waiting[lane_of(words[3])]
            fresh = self.named is not None or any(it.tci == waiting for it in self.fresh
                                                  if not it.down)
            wanted = waiting if waiting != words[3] and fresh else None
        return None if wanted is None else self.reply(wanted)

    def sent(self, words, event):
        """The packet that the line sends."""
        number, down, tci = int(words[1]), words[2] == "down", words[3]
        text = " ".join(words[5:])
        packet = Packet(number, event, down, tci, words[5], text)
        alike = [it for it in self.packets.values()
                 if (it.down, it.tci, it.text) == (down, tci, text) and not it.lost]
        packet.repeats = alike[0].number if alike else None
        self.packets[number] = packet
        self.fresh.append(packet)
        if down:
            self.waiting[packet.lane] = tci
        return packet

    def line(self, event, words, last, rest):
        """Follows a line; `last` is the first word of the line before it in this event, `rest` the
        lines after it."""
        first = words[0]
        step = Step(event, words, end_of(words))
        failed = len(words) > 2 and words[1] == "failed"
        if first == "unit":
            self.new_link()
        elif not (failed and (words[2] == "gave-up" or last in ("gave", "gap", "overflow"))):
            step.came = self.take(self.came(words, last, rest), event)
        if first == "dropped" and step.came is not None:
            step.end = "unit" if step.came.down else "manager"
        if first in ("took", "freed", "checked"):
            self.waiting = {lane: None if step.came and lane == step.came.lane else tci
                            for lane, tci in self.waiting.items()}
        elif first == "proved":
            self.waiting[words[1]] = None
        elif first in ("synced", "audited") or first == "image" or failed:
            self.waiting["low"] = None
        elif first == "gave":
            self.waiting[lane_of(words[2])] = None
        if first == "sent":
            step.sent = self.sent(words, event)
            if step.came is None:
                step.end = "manager" if step.sent.down else "unit"
        self.steps.append(step)

    def read(self, lines):
        """Follows the whole trace."""
        parsed = [parse(number, line) for number, line in enumerate(lines, 1)]
        self.not_enabled = {event for event, words in parsed if words == ["not", "enabled"]}
        done = -1
        last = None
        for place, (event, words) in enumerate(parsed):
            while done < event:
                done += 1
                last = None
                self.began(done)
            rest = (more for number, more in parsed[place:] if number == event)
            self.line(event, words, last, rest)
            last = words[0]
        while done + 1 < len(self.events):
            done += 1
            self.began(done)


def parse(number, line):
    """The event and the words of a line of a trace."""
    words = line.rstrip("\n").split(" ")
    if len(words) < 2 or not words[0].isdecimal():
        raise Fault(f"line {number} of the trace isn't an event and an effect")
    if words[1] == "sent" and (len(words) < 9 or not re.fullmatch("[0-9a-f]{4}", words[4])):
        raise Fault(f"line {number} of the trace isn't a packet")
    return int(words[0]), words[1:]


def end_of(words):
    """The end whose line this is."""
    if words[0] == "sent":
        return "manager" if words[2] == "down" else "unit"
    if words[0] in UNIT_FIRST or words[0] in UNIT_MORE or words[0] == "unit":
        return "unit"
    return "both" if words[0] in ("not", "dropped") else "manager"


def read(lines, script=(), last=None):
    """Follows a trace, the script's events beside it, up to an event where one is given."""
    events = script_events(script)
    lines = [line for line in lines if line.strip()]
    if last is not None:
        events = events[:last + 1]
        lines = [line for line in lines if parse(0, line)[0] <= last]
    reader = Reader(events)
    reader.read(lines)
    return reader
