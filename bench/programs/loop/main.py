def main():
    turns = int(input())
    total = 0
    i = 0
    while i < turns:
        total = (total + i * 7 % 13) % 1000003
        i += 1
    print(total)


main()
