"""What happened in a sheet, told from its lines and their answers, for the tool that draws it.

Which blocks a call handed over is not in its answer, only how many. So the shelves are followed here, by the rules of
settling in docs/RULES.md, and held against the answers: a difference is a Mismatch.
"""

import collections
import re

import records
from records import ORIGIN

NAMED = re.compile(r"# console (\d+): (.+)$")
OVER = re.compile(r"; (\d+) handed over$")
HEX = re.compile(r"(?:proposal|vote) ([0-9a-f]+);")
LOOK = re.compile(r"tick (\d+), lock (\d+), head (\d+) ([0-9a-f]{64}), count (\d+)$")
FAR = 3


class Mismatch(Exception):
    pass


class Block:
    def __init__(self, proposal, leader):
        self.key, self.parent, self.orders = proposal.key, proposal.parent, proposal.orders
        self.leader = leader
        self.label = str(self.key.view)
        self.votes = set()
        self.certified = False
        self.handed_over = {}


class Seat:
    """A console that is played."""

    def __init__(self):
        self.boards, self.chains = {}, []
        self.reopened, self.deliveries = [], []
        self.tick = 0

    def open(self, slots):
        if self.chains:
            self.reopened.append(self.tick // 2)
        self.tick, self.head = 0, ORIGIN
        self.chains.append([])
        self.lend(slots)

    def lend(self, slots):
        self.shelf = [None] * slots
        self.tallies = collections.defaultdict(set)

    @property
    def chain(self):
        return self.chains[-1]

    def hold(self, key):
        if key not in self.shelf:
            self.shelf[self.shelf.index(None)] = key

    def settle(self, blocks, quorum):
        """The blocks that are handed over now, oldest first."""
        held = [key for key in self.shelf if key]
        certified = {key for key in held if len(self.tallies[key]) >= quorum} | {blocks[key].parent for key in held}
        ready = {blocks[key].parent for key in held
                 if key in certified and blocks[key].parent.view == key.view - 1}
        best = []
        for key in held:
            if key in ready and key.view > self.head.view and (not best or key.view > best[-1].view):
                best = self.line(key, blocks) or best
        if best:
            self.head = best[-1]
            self.chain.extend(best)
            self.shelf = [key if key and key.view > self.head.view else None for key in self.shelf]
        return best

    def line(self, key, blocks):
        """The held blocks after the head up to this one, or none if they do not reach the head."""
        line = [key]
        while blocks[line[0]].parent != self.head:
            parent = blocks[line[0]].parent
            if parent not in self.shelf:
                return []
            line.insert(0, parent)
        return line


class Pit:
    """One part of a sheet, from a `pit` to the next one."""

    def __init__(self, n, kind, names):
        self.n, self.kind, self.quorum = n, kind, records.quorum(n)
        self.names = names
        self.blocks, self.seats = {}, {}
        self.signers = collections.defaultdict(set)
        self.cast, self.proposed = set(), set()
        self.views, self.answers = set(), 0
        self.heard, self.refused = collections.Counter(), collections.Counter()

    # Playing

    def play(self, line, answer):
        """Follows a line. Gives back the blocks that it handed over."""
        self.answers += 1
        self.delivered = []
        word, *fields = line.split(" ")
        said = answer.split(": ", 1)[1]
        found = records.REFUSED.search(said)
        if word == "hear":
            self.heard["refused" if found else said.split(";")[0]] += 1
        if found:
            self.refused[int(found[1])] += 1
            return []
        play = getattr(self, f"play_{word}", None)
        if play and not said.startswith("no turn"):
            play(int(fields[0]), fields[1:], said)
        return self.delivered

    def play_open(self, i, fields, said):
        self.seats.setdefault(i, Seat()).open(int(fields[0]))

    def play_shelf(self, i, fields, said):
        self.seats[i].lend(int(fields[0]))

    def play_tick(self, i, fields, said):
        seat = self.seats[i]
        seat.tick = int(fields[0])
        if seat.tick > 1:
            self.views.add(seat.tick // 2)
        if said.startswith("vote"):
            vote = records.read(bytes.fromhex(HEX.match(said)[1]))
            self.cast.add((i, vote.key))
            self.take_vote(i, vote)
            self.deliver(i, said)

    def play_propose(self, i, fields, said):
        proposal = records.read(bytes.fromhex(HEX.match(said)[1]))
        self.proposed.add(proposal.key)
        self.take_proposal(i, proposal)
        self.deliver(i, said)

    def play_hear(self, i, fields, said):
        message = records.read(bytes.fromhex(fields[0]))
        if isinstance(message, records.Vote):
            self.take_vote(i, message)
        else:
            self.take_proposal(i, message)
        if said.startswith("new"):
            self.deliver(i, said)

    def play_look(self, i, fields, said):
        tick, _, view, name, count = LOOK.match(said).groups()
        seat = self.seats[i]
        followed = seat.tick, seat.head.view, seat.head.name.hex(), len(seat.chain)
        if (int(tick), int(view), name, int(count)) != followed:
            raise Mismatch(f"console {i} says {said}, and tick {followed[0]}, head {followed[1]}, count {followed[3]} "
                           "were expected")

    def play_board(self, i, fields, said):
        kind, _, rest = said.partition(" ")
        self.seats[i].boards[kind] = rest or "(empty)"

    def take_proposal(self, i, proposal):
        self.blocks.setdefault(proposal.key, Block(proposal, proposal.key.view % self.n))
        self.signers[proposal.parent].update(proposal.signers)
        self.seats[i].hold(proposal.key)

    def take_vote(self, i, vote):
        self.blocks[vote.key].votes.add(vote.voter)
        self.seats[i].tallies[vote.key].add(vote.voter)

    def deliver(self, i, said):
        seat = self.seats[i]
        line = seat.settle(self.blocks, self.quorum)
        if len(line) != int(OVER.search(said)[1]):
            raise Mismatch(f"console {i} says {said[-40:]}, and {len(line)} handed over were expected")
        view = seat.tick // 2
        for key in line:
            self.blocks[key].handed_over.setdefault(i, view)
        if line:
            seat.deliveries.append((view, line))
            self.delivered = line

    # Telling

    def finish(self):
        """Votes, certificates and labels, when all is known. A certificate may have been heard before its block."""
        for key, block in self.blocks.items():
            block.votes |= self.signers[key]
            block.certified = len(block.votes) >= self.quorum
        for view, blocks in self.by_view().items():
            self.views.add(view)
            if len(blocks) > 1:
                for at, block in enumerate(blocks):
                    block.label += chr(ord("a") + at) if at < 26 else f".{at}"

    def by_view(self):
        views = collections.defaultdict(list)
        for block in self.blocks.values():
            views[block.key.view].append(block)
        return dict(sorted(views.items()))

    def columns(self):
        """The views to show, in sequence, None standing for a long stretch of views without anything."""
        shown = []
        for view in sorted(self.views):
            last = shown[-1] if shown else 0
            if view - last > FAR + 1:
                shown.append(None)
            else:
                shown.extend(range(last + 1, view))
            shown.append(view)
        return shown

    def name(self, i):
        """A console's name, without what the sheet adds to it in brackets."""
        return self.names.get(i, f"console {i}").split(" (")[0]

    def row_name(self, i):
        return f"{i} {self.names[i]}" if i in self.names else f"console {i}"

    def label(self, key):
        return self.blocks[key].label if key in self.blocks else "origin" if key == ORIGIN else f"{key.view}?"

    def labels(self, keys):
        return [self.label(key) for key in keys]

    def lies(self):
        """What each console was seen to sign twice in one view: the view, and the labels."""
        seen = collections.defaultdict(list)
        for view, blocks in self.by_view().items():
            if len(blocks) > 1:
                seen[view % self.n].append(("signed", view, [block.label for block in blocks]))
            for voter in range(self.n):
                voted = [block.label for block in blocks if voter in block.votes]
                if len(voted) > 1:
                    seen[voter].append(("voted for", view, voted))
        return dict(sorted(seen.items()))

    def unexplained(self):
        """The played consoles under whose number there are seals that they did not make on the sheet."""
        found = set()
        for key, block in self.blocks.items():
            found.update(i for i in block.votes if (i, key) not in self.cast)
            if key not in self.proposed:
                found.add(block.leader)
        return sorted(found & set(self.seats))

    def sound(self):
        """The consoles that are played and were not seen to lie."""
        return [i for i in sorted(self.seats) if i not in self.lies()]

    def parted(self):
        """Two chains of sound consoles of which neither is a beginning of the other, or None."""
        chains = [(i, chain) for i in self.sound() for chain in self.seats[i].chains]
        for i, one in chains:
            for j, other in chains:
                if one[:len(other)] != other[:len(one)]:
                    return (i, one), (j, other)
        return None

    def agreement(self):
        sound = self.sound()
        parted = self.parted()
        if parted:
            (i, one), (j, other) = parted
            one, other = (" ".join(self.labels(chain)) for chain in (one, other))
            return f"THE CHAINS PART: console {i} has {one}, console {j} {other}."
        if len(sound) < 2:
            return "There are no two sound consoles here whose chains could be compared."
        who = ", ".join(map(str, sound[:-1])) + f" and {sound[-1]}"
        if len({tuple(self.seats[i].chain) for i in sound}) == 1:
            return f"The chains of the sound consoles {who} agree: at the end all are the same."
        return f"The chains of the sound consoles {who} agree: of any two, one is a beginning of the other."

    def main_line(self):
        """The longest chain of a sound console, and the certified blocks that go on from it."""
        chains = [self.seats[i].chain for i in self.sound()] or [[]]
        line = list(max(chains, key=len))
        while True:
            last = line[-1] if line else ORIGIN
            children = [block for block in self.blocks.values() if block.parent == last]
            if not children:
                return line
            line.append(max(children, key=lambda block: (block.certified, len(block.votes), -block.key.view)).key)


def play(sheet, answers):
    """The first sentence of a sheet's first comment, the parts of the sheet, and every line of it: the line, its answer
    (none to a comment), the part that it belongs to, and the blocks that it handed over."""
    parts, names, pit, story = [], {}, None, []
    answers = iter(answers.split("\n"))
    for number, line in enumerate(sheet.split("\n"), 1):
        if line.startswith("#") or not line.strip(" "):
            named = NAMED.match(line)
            if named:
                names[int(named[1])] = named[2]
            story.append((line, None, pit, []))
            continue
        answer = next(answers, "")
        if not answer:
            break
        delivered = []
        if line.startswith("pit "):
            pit = None
            if not records.REFUSED.search(answer):
                pit = Pit(int(line.split(" ")[1]), line.split(" ")[2], names)
                parts.append(pit)
        elif pit and not line.startswith(("name ", "mac ", "read ", "try ")):
            try:
                delivered = pit.play(line, answer)
            except Mismatch as difference:
                raise Mismatch(f"line {number}: {difference}") from None
        story.append((line, answer, pit, delivered))
    for part in parts:
        part.finish()
    return title_of(sheet), parts, story


def title_of(sheet):
    words = []
    for line in sheet.split("\n"):
        if not line.startswith("#") or NAMED.match(line):
            break
        words += line.lstrip("#").split()
        ends = [at for at, word in enumerate(words) if word.endswith(".")]
        if ends:
            return " ".join(words[:ends[0] + 1])
    return " ".join(words)
