def main():
    count = int(input())
    everything = []
    seed = 1
    for _ in range(count):
        seed = (seed * 1103 + 12345) % 65537
        everything.append(seed)
    for i in range(count // 2):
        first = everything[i]
        everything[i] = everything[count - 1 - i]
        everything[count - 1 - i] = first
    total = 0
    for i in range(count):
        total += everything[i] * (i % 10)
    print(len(everything), total)


main()
