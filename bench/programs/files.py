import sys
import time


class File:
    def __init__(self, name, size):
        self.text = name
        self.bytes = size

    def name(self):
        return self.text

    def size(self):
        return self.bytes

    def grow(self, by):
        self.bytes = self.bytes + by

    def check(self, most):
        if self.bytes > most:
            raise ValueError("Big")

    def rename(self, to):
        self.text = to


class Dir:
    def __init__(self, files):
        self.list = files

    def files(self):
        return self.list


def run(root, rounds, by):
    turns = []
    for f in root.files():
        entries = []
        for _ in range(rounds):
            size = f.size()
            f.grow(by)
            entries.append(f.size())
            large = size > 900
            if large:
                entries.append((True, [f.name()]))
            else:
                entries.append((False, [size]))
            f.check(size + 1000)
            entries.append(f.size() == size + by)
            f.rename(f.name())
            f.grow(-by)
            grown = f.size() - size
            entries.append(grown)
        turns.append(entries)
    return turns


def totals(turns):
    entries = 1
    total = 0
    for turn in turns:
        for entry in turn:
            entries += 1
            if type(entry) is tuple:
                entries += 1
                entry = entry[1][0]
            if type(entry) is int:
                total += entry
    return f"{len(turns)} turns, {entries} entries, sum {total}"


def main(count, rounds):
    root = Dir([File(f"f{i}", i * 617 % 1000) for i in range(1, count + 1)])
    print(totals(run(root, rounds, 3)))
    times = []
    for _ in range(20):
        start = time.process_time()
        run(root, rounds, 3)
        times.append(time.process_time() - start)
    print(min(times) * 1000)


main(int(sys.argv[1]), int(sys.argv[2]))
