def main():
    count = int(input())
    times = {}
    for i in range(count):
        key = "key" + str(i * 7919 % 1000)
        times[key] = times.get(key, 0) + 1
    most = 0
    for key in times:
        if times[key] > most:
            most = times[key]
    print(len(times), most)


main()
