def doubles():
    m = yield
    return (m * 2 + 1) % 10007


def following(n):
    worker = doubles()
    next(worker)
    try:
        worker.send(n)
    except StopIteration as end:
        return end.value


def main():
    turns = int(input())
    n = 1
    for _ in range(turns):
        n = following(n)
    print(n)


main()
