"""The verdicts of a set of files as docs/FORMATS.md defines them, and the calls of a checker as docs/CALLS.md tells them."""
import sys

import reading
import right_paths
from reading import meaning

# one turn of the definition of a hash takes two levels, and a set has 256 files
sys.setrecursionlimit(4000)

ACCEPTED = (0, 0, 0, 0, 0)


class Refused(Exception):
    def __init__(self, number):
        self.number = number


class FileSet:
    """The files, (path, text) in the order of the chain, and what the definitions say of each, by its path."""

    def __init__(self, files, digest=right_paths.sha256):
        self.files, self.digest = files, digest
        self.texts = dict(files)
        self.faults = {path: reading.fault(path, text) for path, text in files}
        self.means = {path: right_paths.File(text) for path, text in files if not self.faults[path]}
        self.worked = {}

    def rows(self, path):
        """The input rows of a file that reads, in text order: the offset, the path and the names of each."""
        fields = reading.Text(self.texts[path]).whole()
        return [(place, meaning(row), {meaning(n) for _, n in names}) for place, (row, names) in fields[1]]

    def owns(self, path, names):
        """Whether a file owns the outputs named; nothing is asked of one that does not read."""
        return path not in self.means or names <= {row[0] for row in self.means[path].outputs}

    def fault_of_inputs(self, path):
        """18 and 19, of a file that reads."""
        rows = list(enumerate(self.rows(path), 1))
        for i, (place, other, _) in rows:
            if other not in self.texts:
                return 18, 4, 2, i, place
        for i, (place, other, names) in rows:
            if not self.owns(other, names):
                return 19, 4, 2, i, place
        return None

    def work(self, path, above=()):
        """What is worked out for a file, or None if it has no hash; `above` are files that rest on it."""
        if path in above:
            return None
        if path not in self.worked:
            self.worked[path] = self.work_anew(path, above + (path,))
        return self.worked[path]

    def work_anew(self, path, above):
        if path not in self.means or self.fault_of_inputs(path):
            return None
        file = self.means[path]
        inputs = {other: self.work(other, above) for other, _ in file.inputs}
        if None in inputs.values():
            return None
        hashes = {other: worked.hash for other, worked in inputs.items()}
        return right_paths.Worked(path, file, hashes, self.digest)

    def verdict(self, path, unhashed_row):
        """The first no to all the questions. Which row is told with 20 is another's choice."""
        found = self.faults[path] or self.fault_of_inputs(path)
        if found:
            return found
        worked = self.work(path)
        if worked:
            return right_paths.verdict(path, self.texts[path], worked)
        i = unhashed_row(path)
        place, other, _ = self.rows(path)[i]
        assert self.work(other) is None, (path, other)
        return 20, 4, 2, i + 1, place

    def rests_on(self, path):
        """All that a file rests on."""
        found, new = set(), [path]
        while new:
            at = new.pop()
            for other, _ in self.means[at].inputs if at in self.means else []:
                if other not in found:
                    found.add(other)
                    new.append(other)
        return found


def line(number, verdict):
    return b"%d pending\n" % number if verdict is None else b"%d %d %d %d %d %d\n" % (number, *verdict)


def tail(count, accepted):
    return b"%d %d %d\n" % (count, accepted, 100 * accepted // count if count else 100)


class Checker:
    """A checker of a set; without files none is opened. `last` is the string that its sink holds, and `total` the length of all so far.

    A file's state is "pending", "taken", or the pair of its verdict and what is worked out for it.
    """

    def __init__(self, files=None, digest=right_paths.sha256):
        self.set = None if files is None else FileSet(files, digest)
        self.paths = [path for path, _ in files or []]
        self.numbers = {path: k for k, path in enumerate(self.paths, 1)}
        self.states = ["pending"] * len(self.paths)
        self.last, self.total = b"", 0

    def settled(self, path, hashed):
        """Whether a file is settled, with a hash or without one."""
        state = self.states[self.numbers[path] - 1]
        return isinstance(state, tuple) and (state[1] is not None) == hashed

    def is_ready(self, path):
        if self.set.faults[path] or self.set.fault_of_inputs(path):
            return True
        inputs = [other for _, other, _ in self.set.rows(path)]
        return any(self.settled(p, False) for p in inputs) or all(self.settled(p, True) for p in inputs)

    def unhashed_row(self, path):
        """The first row whose file is settled without a hash; where there is none, the first whose file is not settled."""
        inputs = [other for _, other, _ in self.set.rows(path)]
        without = [i for i, other in enumerate(inputs) if self.settled(other, False)]
        waiting = [i for i, other in enumerate(inputs) if not self.settled(other, False) and not self.settled(other, True)]
        return (without + waiting)[0]

    def digested(self, strings):
        self.last = strings[-1]
        self.total += sum(map(len, strings))

    # The questions that more than one call puts.

    def ask_opened(self):
        if self.set is None:
            raise Refused(31)

    def ask_file(self, number):
        self.ask_opened()
        if not 1 <= number <= len(self.paths):
            raise Refused(35)

    def ask_visit(self, number):
        self.ask_opened()
        if not 1 <= number <= len(self.paths) or self.states[number - 1] != "taken":
            raise Refused(34)

    # The calls. One that writes answers the bytes that it writes, `size` being the length of its buffer.

    def take(self):
        self.ask_opened()
        if "taken" in self.states:
            raise Refused(32)
        pending = [k for k, state in enumerate(self.states, 1) if state == "pending"]
        if not pending:
            raise Refused(33)
        ready = [k for k in pending if self.is_ready(self.paths[k - 1])]
        number = (ready + pending)[0]
        self.states[number - 1] = "taken"
        return number

    def settle(self, number):
        """How many bytes it digests."""
        self.ask_visit(number)
        path = self.paths[number - 1]
        verdict, worked = self.set.verdict(path, self.unhashed_row), self.set.work(path)
        self.states[number - 1] = verdict, worked
        if worked is None:
            return 0
        self.digested(worked.strings)
        return sum(map(len, worked.strings))

    def put_back(self, number):
        self.ask_visit(number)
        self.states[number - 1] = "pending"

    def verdict(self, number):
        """None before the file is settled."""
        self.ask_file(number)
        state = self.states[number - 1]
        return state[0] if isinstance(state, tuple) else None

    def path(self, number, j, size):
        self.ask_file(number)
        if not self.settled(self.paths[number - 1], True):
            raise Refused(36)
        worked = self.states[number - 1][1]
        if j > len(worked.outputs):
            raise Refused(37)
        right = ([worked.own] + worked.outputs)[j]
        self.ask_room(right, size)
        self.digested(([worked.own_strings] + worked.output_strings)[j])
        return right

    def rewrite(self, number, size):
        self.ask_file(number)
        path = self.paths[number - 1]
        if self.set.faults[path]:
            raise Refused(38)
        return self.ask_room(reading.canonical(self.set.texts[path]), size)

    def circle(self):
        """The lowest of the files that rest on themselves; any of them would be right."""
        self.ask_opened()
        return next((k for k, path in enumerate(self.paths, 1) if path in self.set.rests_on(path)), 0)

    def line(self, number, size):
        return self.ask_room(line(number, self.verdict(number)), size)

    def tail(self, size):
        self.ask_opened()
        accepted = [state for state in self.states if isinstance(state, tuple) and state[0] == ACCEPTED]
        return self.ask_room(tail(len(self.paths), len(accepted)), size)

    def ask_room(self, text, size):
        if len(text) > size:
            raise Refused(39)
        return text


def settle_all(checker):
    while "pending" in checker.states:
        checker.settle(checker.take())


def report(files):
    """The lines of all files, settled in the order in which take hands them out, and the last line."""
    checker = Checker(files)
    settle_all(checker)
    return b"".join(checker.line(k, 2**16) for k in range(1, len(files) + 1)) + checker.tail(2**16)
