def main():
    i = 0
    total = 0
    while i < 1000000:
        total = (total * 31 + i) % 1000003
        i = i + 1
    print(total)


main()
