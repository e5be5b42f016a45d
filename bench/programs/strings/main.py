def main():
    count = int(input())
    text = ""
    for i in range(count):
        text += "ab" if i % 3 == 0 else "cd"
    found = 0
    for i in range(len(text)):
        if text[i] == "a":
            found += 1
    print(len(text), found, text[0:8].upper())


main()
