import sys
import time


class File:
    def __init__(self, name, size):
        self.text = name
        self.bytes = size

    def name(self):
        return self.text

    def size(self):
        return self.bytes

    def rename(self, to):
        self.text = to


class Dir:
    def __init__(self, files):
        self.list = files

    def files(self):
        return self.list


def directory(count):
    return Dir([File(f"f{i}", i * 617 % 1000) for i in range(1, count + 1)])


def run(root):
    lines = []
    total = 0
    for f in root.files():
        size = f.size()
        total = total + size
        if size > 900:
            name = f.name()
            f.rename("big-" + name)
            if len(lines) < 4:
                lines.append(name)
    lines.append(total)
    return lines


def timed(count):
    root = directory(count)
    start = time.process_time()
    run(root)
    return time.process_time() - start


def main(count):
    for line in run(directory(count)):
        print(line)
    print(min(timed(count) for _ in range(20)) * 1000)


if __name__ == "__main__":
    main(int(sys.argv[1]))
