class Counter:
    def __init__(self, n):
        self.n = n

    def add(self, by):
        return self.n + by


def main():
    c = Counter(3)
    i = 0
    total = 0
    while i < 500000:
        total = c.add(total) % 1009
        i = i + 1
    print(total)


main()
