"""A disk as a program's calls leave it, and what a loss of power may leave of it.

What was synced is there. Of what was not, any part may be: bytes of a file by blocks or up to a place, its new size over
zeros where bytes are missing, names that were made, changed or taken away.
"""
import dataclasses
import os

BLOCKS = (512, 4096)


@dataclasses.dataclass
class File:
    """A file's bytes: those that were synced, and those that it has now. `kept` of the first stay whatever is lost."""

    synced: bytes = b""
    now: bytes = b""
    kept: int = 0

    def write(self, offset, data):
        grown = self.now.ljust(offset, b"\0")
        self.now = grown[:offset] + data + grown[offset + len(data) :]
        self.kept = min(self.kept, offset)

    def cut(self, size):
        self.now = self.now[:size].ljust(size, b"\0")
        self.kept = min(self.kept, size)

    def sync(self):
        self.synced, self.kept = self.now, len(self.now)


def events(recording):
    """The events of a recording (recording.c): what was done, its numbers, its bytes."""
    with open(recording, "rb") as file:
        while line := file.readline():
            what, *numbers = line.decode().split()
            *numbers, count = map(int, numbers)
            yield what, numbers, file.read(count)


class Disk:
    """Files by their inodes, and names by their paths: those that were synced, and what was done to them since."""

    def __init__(self, folder):
        """A disk on which all is synced that stands in a folder now."""
        self.folder, self.files, self.names, self.steps = folder, {}, {}, []
        for at, _, found in os.walk(folder):
            for path in (os.path.join(at, name) for name in found):
                if not os.path.islink(path):
                    with open(path, "rb") as file:
                        data = file.read()
                    self.names[path] = self.files[os.stat(path).st_ino] = File(data, data, len(data))

    def names_now(self, steps=None):
        """The names where these steps were done, or all."""
        names = dict(self.names)
        for what, paths, file in self.steps if steps is None else steps:
            if what == "removed":
                names.pop(paths[0], None)
            else:
                names[paths[-1]] = file
            if what == "renamed":
                names.pop(paths[0], None)
        return names

    def apply(self, what, numbers, data):
        """Does what an event tells."""
        if what in ("opened", "renamed", "linked", "removed"):
            paths = [os.path.join(self.folder, path.decode()) for path in data.split(b"\0")]
            real = [os.path.realpath(os.path.dirname(path)) + "/" + os.path.basename(path) for path in paths]
        if what == "opened":
            path = os.path.realpath(paths[0])
            if path.startswith(self.folder + "/") and not os.path.isdir(path) and path not in self.names_now():
                self.files[numbers[0]] = File()
                self.steps.append(("made", [path], self.files[numbers[0]]))
        elif what in ("renamed", "linked", "removed"):
            self.steps.append((what, real, self.names_now().get(real[0])))
        elif what == "wrote" and numbers[0] in self.files:
            self.files[numbers[0]].write(numbers[1], data)
        elif what == "cut":
            self.files[numbers[0]].cut(numbers[1])
        elif what == "synced" and numbers[0] in self.files:
            self.files[numbers[0]].sync()
        elif what == "synced":
            self.sync_folder(numbers[0])

    def sync_folder(self, inode):
        """The names in this folder are there."""
        inside = lambda step: os.stat(os.path.dirname(step[1][0])).st_ino == inode
        self.names = self.names_now([step for step in self.steps if inside(step)])
        self.steps = [step for step in self.steps if not inside(step)]

    def is_settled(self):
        return not self.steps and all(file.synced == file.now for file in self.names_now().values())

    def states(self, chance, most):
        """States that a loss of power may leave now: how each came about, and by their paths the bytes of its files, with how
        many of them stand whatever is lost."""
        ways = [[]] + [self.steps[:i] for i in range(1, len(self.steps) + 1)]
        ways += [[step for step in self.steps if chance.random() < 0.5] for _ in range(2)] if len(self.steps) > 1 else []
        for way in ways:
            names = self.names_now(way)
            unsynced = [it for it in {id(file): file for file in names.values()}.values() if it.synced != it.now]
            if not unsynced:
                yield "names", {path: (file.synced, file.kept) for path, file in names.items()}
            for file in unsynced:
                found = list(parts(file, chance))
                # the plain ones always, of the others as many as are asked for
                others = [it for it in found if it[0] != "whole"]
                for kind, data in [it for it in found if it[0] == "whole"] + chance.sample(others, min(most, len(others))):
                    left = {path: data if it is file else chance.choice((it.synced, it.now)) for path, it in names.items()}
                    yield kind, {path: (data, names[path].kept) for path, data in left.items()}


def parts(file, chance):
    """What may be there of a file whose last bytes were not synced, by kind."""
    old, new = file.synced, file.now
    yield "whole", old
    yield "whole", new
    first = next((i for i, (a, b) in enumerate(zip(old, new)) if a != b), min(len(old), len(new)))
    ends = {first + 1, (first + len(new)) // 2, len(new) - 1}
    ends |= {end for block in BLOCKS for end in range(first // block * block + block, len(new), block)}
    for end in sorted(it for it in ends if first < it < len(new)):
        yield "torn", new[:end] + old[end : len(new)]
        yield "zeros", new[:end].ljust(len(new), b"\0")
        yield "zeros", new[:end].ljust(chance.randint(end, len(new)), b"\0")
    if first < len(new):
        yield "zeros", old[:first].ljust(len(new), b"\0")
    for block in BLOCKS:
        places = range(first // block, -(-max(len(old), len(new)) // block))
        if len(places) < 2:
            continue
        some = chance.choice(places)
        for chosen in ({some}, set(places) - {some}, {at for at in places if chance.random() < 0.5}):
            yield "blocks", mixed(old, new, block, chosen)


def mixed(old, new, block, chosen):
    """The new bytes in the blocks that are chosen and the old ones in the others, zeros where there were none; as long as
    the new."""
    most = max(len(old), len(new))
    old, whole = old.ljust(most, b"\0"), new.ljust(most, b"\0")
    pieces = [(whole if at in chosen else old)[at * block : (at + 1) * block] for at in range(-(-most // block))]
    return b"".join(pieces)[: len(new)]
