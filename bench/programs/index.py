def main():
    items = [3, 1, 4, 1, 5, 9, 2, 6, 5, 3]
    while len(items) < 5120:
        items = items + items
    i = 0
    total = 0
    while i < 800000:
        total = total + items[i % 5120]
        i = i + 1
    print(total)


main()
