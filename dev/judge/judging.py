"""The judge: for words and an input what the program must answer."""
from judge.batches import read_batch, wanted_batch
from judge.certificates import certified, read_certificate, verified
from judge.frames import check_watch
from judge.machines import counter_refusal, counter_text, load_text, read_machine
from judge.model import breach, canonical, full_growth, growth_text, picture_text, places_text, verdict
from judge.rules import read_quadrant
from judge.schedules import read_events, Scouts
from judge.systems import read_places, read_system
from judge.texts import Fault, Lines, TooLarge
from judge.wanted import check_growth, check_race, check_report, is_only_one, refused_words, stuck, Wanted
from judge.words import reading_of
from tilebench.commands import COMMANDS, GROWERS, READERS


class Judge:
    """Says what must come. What it works out of an input stands in `memory` for the next question about it."""

    def __init__(self, most_tiles=6000):
        self.most_tiles, self.memory = most_tiles, (None, None)

    def system_grown(self, text):
        """A system and its growth: tiles, text, verdict."""
        if self.memory[0] != text:
            lines = Lines(text)
            system = read_system(lines)
            lines.end()
            tiles = full_growth(system, self.most_tiles)
            self.memory = text, (system, tiles, *growth_text(system, tiles))
        return self.memory[1]

    def grown(self, command, numbers, text):
        """`grow`, `race`, `report`, `watch`."""
        system, tiles, told, said = self.system_grown(text)
        workers, is_one, status = numbers[0], is_only_one(said), 0 if said == b"yes" else 1
        if command == "race":
            return Wanted(0, check=check_race(system, workers, len(tiles) if is_one else None))
        if command == "report":
            word = b"no" if status else b"yes"
            return Wanted(status, check=check_report(system, workers, tiles if is_one else None, word))
        if command == "watch":
            check = (
                (lambda out: None if out == told else "the growth is another one than grow prints")
                if is_one
                else check_growth(system)
            )
            return Wanted(status, check=check_watch(system, numbers[2], check))
        return Wanted(status, told) if is_one else Wanted(status, check=check_growth(system))

    def checked(self, system, lines):
        sequence = read_places(lines, system, False)
        wrong = breach(system, sequence)
        if wrong is not None:
            return Wanted(1, b"legal no %s\n" % wrong)
        said = verdict(system, sequence)
        return Wanted(0 if said == b"yes" else 1, b"legal yes\nunique %s\n" % said)

    def replayed(self, system, lines):
        tiles = dict(read_places(lines, system, True))
        return stuck(system, tiles) or Wanted(0, places_text(system, canonical(system, tiles)))

    def certified(self, system, lines):
        tiles = dict(read_places(lines, system, True))
        if stuck(system, tiles):
            return stuck(system, tiles)
        text, is_yes = certified(system, tiles)
        return Wanted(0 if is_yes else 1, text)

    def verified(self, system, lines):
        said = verified(system, read_certificate(lines, system))
        return Wanted(0 if said == b"yes" else 1, b"verified %s\n" % said)

    def scheduled(self, system, lines):
        scouts = Scouts(system)
        replies = [scouts.answer(it) for it in read_events(lines, system)]
        text = b"".join(it + b"\n" for it in replies) + places_text(system, canonical(system, scouts.tiles))
        return Wanted(1 if any(it.startswith(b"refused") for it in replies) else 0, text)

    def read(self, command, numbers, text):
        """A command that reads, by an input without a fault."""
        if command in GROWERS:
            return self.grown(command, numbers, text)
        lines = Lines(text)
        if command in ("turing", "quadrant"):
            compiled = read_machine(lines) if command == "turing" else read_quadrant(lines)
            lines.end()
            return Wanted(0, compiled.system())
        if command == "batch":
            return wanted_batch(read_batch(lines), self.most_tiles)
        system = read_system(lines)
        if command in ("format", "upgrade"):
            lines.end()
            return Wanted(0, system.spelling(2 if command == "upgrade" else None))
        if command == "picture":
            if system.width() * system.height() > 64 * self.most_tiles:
                raise TooLarge
            return Wanted(0, picture_text(system, dict(read_places(lines, system, True))))
        ways = {
            "check": self.checked,
            "replay": self.replayed,
            "schedule": self.scheduled,
            "certify": self.certified,
            "verify": self.verified,
        }
        return ways[command](system, lines)

    def counted(self, command, numbers):
        if command == "load":
            return Wanted(0, load_text(*numbers), is_read=False)
        refusal = counter_refusal(*numbers)
        return refused_words(refusal) if refusal else Wanted(0, counter_text(*numbers), is_read=False)

    def wanted(self, words, text):
        """What must come to words (a list of bytes) and an input. TooLarge is raised where the judge would have too
        much to do."""
        try:
            command, numbers = reading_of([it.decode() for it in words])
        except UnicodeDecodeError:
            return Wanted(2, is_read=False)
        if command not in COMMANDS:
            return refused_words(command)
        try:
            return self.read(command, numbers, text) if command in READERS else self.counted(command, numbers)
        except Fault as why:
            return Wanted(3, err=b"refused text line %d %s\n" % (why.line, why.cause.encode()))
