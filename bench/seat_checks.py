"""Whether what a seat of a live desk was told is right.

To each of a seat's lines belongs a number of accepted edits. The numbers never fall along the lines, and each reply is the one that its line
has on the netlist after so many edits; an accepted edit has its place among all, and nobody else has it. What a reply has to be after so many
edits is asked of `mpwb play`, in a run of its own; but `work` is refused at a seat, and an edit of a viewer.
"""
import dataclasses
import subprocess

SECONDS = 60


class Wrong(Exception):
    """What was told isn't right, or didn't come."""


def expect(what, wanted, found):
    if wanted != found:
        raise Wrong(f"{what}: {str(wanted)[:300]} was wanted, and {str(found)[:300]} found")


@dataclasses.dataclass
class Played:
    """What `play` answers over a netlist after the first of some edits, with each edit as the line that makes it."""

    program: str
    netlist: str
    edits: list
    known: dict = dataclasses.field(default_factory=dict)

    def reply(self, line, count):
        """The reply to a line after so many of the edits."""
        if (line, count) not in self.known:
            lines = [*self.edits[:count], line]
            script = "".join(f"{each}\n" for each in lines).encode()
            run = subprocess.run([self.program, "play", self.netlist], input=script, stdout=subprocess.PIPE, timeout=SECONDS, check=True)
            replies = run.stdout.decode().splitlines()
            expect("the edits in play", [f"accepted {k + 1}" for k in range(count)], replies[:count])
            self.known[(line, count)] = replies[count:]
        return self.known[(line, count)]


def same_edit(line, edit):
    """Whether two lines make the same edit: the same words."""
    return words_of(line) == words_of(edit)


def words_of(line):
    return line.split("#")[0].split()


def unsigned(reply):
    """The lines of an answer to `edits` without the designers who made them."""
    return [line.split(" # ")[0] for line in reply]


def is_edits(line):
    return words_of(line)[:1] == ["edits"]


EDITS = {"wire", "module", "stim", "bundle", "remove", "input", "output", "indelay", "delay", "clear", "batch"}


def is_edit(line):
    return bool(line.split()) and line.split()[0] in EDITS


def check_seat(played, name, log):
    """Whether the replies of a seat are right. Returns the places of its accepted edits."""
    least = 0
    places = []
    for line, reply in log:
        if reply is None:
            continue
        words = reply[0].split() if reply else [""]
        if words[0] == "accepted":
            place = int(words[1])
            if not is_edit(line) or place <= least or place > len(played.edits) or not same_edit(line, played.edits[place - 1]):
                raise Wrong(f"{name}: {line} was accepted as {place}, after {least}")
            least = place
            places.append(place)
        elif is_edit(line) and name.startswith("viewer"):
            expect(f"{name}: {line}", ["refused 22 NotADesigner"], reply)
        elif line.split() == ["work"]:
            expect(f"{name}: {line}", ["refused 23 NoWork"], reply)
        else:
            least = number_of(played, name, line, unsigned(reply) if is_edits(line) else reply, least)
    return places


def check_makers(logs, makers):
    """Whether each edit that a seat was told of is signed by the designer who was told that it is accepted."""
    for name, log in logs.items():
        for line, reply in log:
            if not is_edits(line) or not reply or reply[0].startswith("unread"):
                continue
            for edit in reply:
                place, signed = int(edit.split()[0]), edit.partition(" # ")[2]
                if signed != makers.get(place, signed):
                    raise Wrong(f"{name}: {edit} was made by {makers.get(place)}")


def number_of(played, name, line, reply, least):
    """The least number of edits, not below one, after which the line has the reply."""
    for count in range(least, len(played.edits) + 1):
        if played.reply(line, count) == reply:
            return count
    raise Wrong(f"{name}: {line} was answered {reply}, which it never is after {least} edits or more")


def is_refused(line, reply):
    """Whether a reply refuses an edit, or says that a line isn't read. A question is neither, also where it asks for what isn't there."""
    first = reply[0].split()[0] if reply else ""
    return first == "refused" and is_edit(line) or first == "unread" and not is_edits(line)


def check_tally(name, log, places, written, unread):
    """Whether the desk counted a designer's lines rightly, with so many that aren't in the log and were not read. A line whose reply nobody read was accepted,
    refused, or not read."""
    refused = unread + sum(is_refused(line, reply) for line, reply in log)
    lost = sum(1 for _, reply in log if reply is None)
    number = name.split("-")[1]
    words = written[int(number) - 1].split()
    expect("the line of a designer", ["designer", number, "accepted", "refused"], words[:3] + words[4:5])
    accepted, rest = int(words[3]) - len(places), int(words[5]) - refused
    if accepted < 0 or rest < 0 or accepted + rest > lost:
        raise Wrong(f"{name} has {len(places)} accepted and {refused} refused lines and {lost} without a reply: {words}")


def check_all(played, logs, written, unread=0):
    """Whether all seats were answered rightly, and what the desk wrote at its end. The logs stand by the seats' names, designers first."""
    places, makers = [], {}
    for name, log in logs.items():
        own = check_seat(played, name, log)
        places += own
        makers |= dict.fromkeys(own, name)
        if name.startswith("designer"):
            check_tally(name, log, own, written, unread if name == "designer-1" else 0)
    if len(set(places)) != len(places):
        raise Wrong(f"two edits have one place: {places}")
    check_makers(logs, makers)
    lost = [line for log in logs.values() for line, reply in log if reply is None]
    for place in sorted(set(range(1, len(played.edits) + 1)) - set(places)):
        made = [line for line in lost if same_edit(line, played.edits[place - 1])]
        if not made:
            raise Wrong(f"nobody made edit {place}, {played.edits[place - 1]}")
        lost.remove(made[0])
    viewers = [name.split("-")[1] for name in logs if name.startswith("viewer")]
    saw = [f"viewer {number} saw {len(played.edits)}" for number in viewers]
    expect("the lines of viewers", saw, written[len(logs) - len(viewers):len(logs)])
    waves = played.reply("waves", len(played.edits))
    expect("the waves at the end", waves, written[len(written) - len(waves):])


def edits_of(lines):
    """The edits of the answer to `edits 1`."""
    words = [line.split(" ", 1) for line in unsigned(lines)]
    expect("the numbers of edits", [str(k + 1) for k in range(len(words))], [number for number, _ in words])
    return [edit for _, edit in words]
