"""Schedules of scouts, from docs/FORMATS.md."""
from judge.texts import number_in, read_text, referred, site_in, U32

SCHEDULE = {
    b"look": (4, False, (None, b"look", b"claim", b"split", b"join")),
    b"claim": (5, False, (None, b"look", b"claim", b"split", b"join")),
    b"split": (2, False, (None, b"look", b"claim", b"split", b"join")),
    b"join": (3, False, (None, b"look", b"claim", b"split", b"join")),
}


def read_events(lines, system):
    events = []

    def item(words):
        event = [words[0], number_in(words[1], 0, U32)]
        if words[0] == b"join":
            event.append(number_in(words[2], 0, U32))
        elif words[0] != b"split":
            event.append(site_in(words[2:4]))
        if words[0] == b"claim":
            event.append(referred(words[4], system.types))
        events.append(event)

    read_text(lines, None, SCHEDULE, item)
    return events


class Scouts:
    """Scouts that grow one assembly: for each name its numbers and what it has seen."""

    def __init__(self, system):
        self.system, self.tiles = system, dict(system.seeds)
        self.scouts = {0: (set(range(64)), dict(system.seeds))}

    def answer(self, event):
        kind, who = event[:2]
        if who not in self.scouts or kind == b"join" and (event[2] not in self.scouts or event[2] == who):
            return b"refused 1"
        numbers, seen = self.scouts[who]
        if kind == b"split":
            if len(numbers) == 1:
                return b"refused 4"
            new = max(numbers)
            numbers.discard(new)
            self.scouts[new] = ({new}, dict(seen))
            return b"split %d" % new
        if kind == b"join":
            others, seen_too = self.scouts[event[2]]
            del self.scouts[who], self.scouts[event[2]]
            self.scouts[min(who, event[2])] = (numbers | others, {**seen, **seen_too})
            return b"joined %d" % min(who, event[2])
        return self.at_site(event, seen)

    def at_site(self, event, seen):
        site = event[2]
        if not self.system.has(site):
            return b"refused 3"
        is_claim, stands = event[0] == b"claim", self.tiles.get(site)
        if is_claim:
            pull = self.system.pull(self.system.facing(seen, *site), event[3])
            if pull < self.system.tau:
                return b"refused 2 %d" % pull
            if stands is None:
                self.tiles[site] = seen[site] = event[3]
                return b"won"
        if stands is None:
            return b"saw -"
        seen[site] = stands
        return (b"held %s" if is_claim else b"saw %s") % self.system.name(stands)
