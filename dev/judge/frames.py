"""What `watch` must answer: frames of a growth, each a part of the next, and the growth, from docs/FORMATS.md and
docs/MODEL.md."""
import heapq
import re

from judge.texts import NUMBER, STEPS

FRAME = re.compile(rb"frame ([1-9][0-9]*) ([1-9][0-9]*)")


class Listing:
    """Places in the order in which frames list them, which begins with the seeds."""

    def __init__(self, system):
        self.system, self.places, self.tiles = system, list(system.seeds), dict(system.seeds)

    def extend(self, tiles):
        """Goes on over tiles: as long as one of them attaches to what is listed, the one at the least site follows."""
        waiting, ready = {it for it in tiles if it not in self.tiles}, []

        def look_at(site):
            facing = self.system.facing(self.tiles, *site)
            if site in waiting and self.system.pull(facing, tiles[site]) >= self.system.tau:
                waiting.discard(site)
                heapq.heappush(ready, (site[1], site[0]))

        for site in list(waiting):
            look_at(site)
        while ready:
            y, x = heapq.heappop(ready)
            self.tiles[x, y] = tiles[x, y]
            self.places.append(((x, y), tiles[x, y]))
            for a, b in STEPS:
                look_at((x + a, y + b))


def frames_of(system, lines):
    """The number, the count and the places of each frame, or what is wrong with one."""
    frames, names = [], system.types
    for line in lines:
        words, head = line.split(b" "), FRAME.fullmatch(line)
        if head:
            frames.append((int(head[1]), int(head[2]), []))
        elif frames and len(words) == 4 and words[0] == b"place" and words[3] in names:
            site = tuple(int(it) for it in words[1:3] if NUMBER.fullmatch(it))
            if len(site) != 2 or line != b"place %d %d %s" % (*site, words[3]) or not system.has(site):
                return f"no place of the box: {line!r}"
            frames[-1][2].append((site, names[words[3]]))
        else:
            return f"no line of a frame: {line[:200]!r}"
    return frames


def wrong_frames(system, frames):
    """What is wrong with the frames, if something is; else the places of the last one."""
    listing = Listing(system)
    for at, (number, count, places) in enumerate(frames):
        before = 0 if at == 0 else len(listing.places)
        listing.extend(dict(places))
        if number != at + 1:
            return f"frame {number} stands where frame {at + 1} should", None
        if count != len(listing.places):
            return (
                f"frame {number} says {count} tiles, and {len(listing.places)} of those that it lists can stand",
                None,
            )
        if places != listing.places[before:]:
            return f"frame {number} does not list its new tiles as they follow one another", None
    return None, listing.places


def check_watch(system, many, check):
    """Judges what `watch` printed with so many frames; `check` judges the growth behind them."""

    def checked(out):
        front, mark, growth = out.partition(b"\ngrown\n")
        if not mark:
            return f"no line `grown`: {out[:300]!r}"
        frames = frames_of(system, front.split(b"\n"))
        if isinstance(frames, str):
            return frames
        if len(frames) != many:
            return f"{len(frames)} frames, wanted {many}"
        why, places = wrong_frames(system, frames)
        why = why or check(growth)
        if why is None:
            grown = {tuple(it.split(b" ")[1:]) for it in growth.split(b"\n") if it.startswith(b"place ")}
            if not all((b"%d" % x, b"%d" % y, system.name(kind)) in grown for (x, y), kind in places):
                why = "the last frame is no part of what grew"
        return why

    return checked
