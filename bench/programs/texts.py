def main():
    i = 0
    count = 0
    text = ""
    while i < 700000:
        text = text + "x"
        if len(text) == 64:
            text = ""
            count = count + 1
        i = i + 1
    print(count)


main()
