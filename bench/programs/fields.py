class Pair:
    def __init__(self, a, b):
        self.a = a
        self.b = b


def main():
    p = Pair(1, 2)
    i = 0
    while i < 500000:
        p.a = p.a + p.b
        p.b = p.a % 1000
        i = i + 1
    print(p.a)


main()
