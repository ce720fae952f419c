def c():
    return [[[1] * 16 for _ in range(16)] for _ in range(16)]


def add_one(v):
    v[1][2][3] = v[1][2][3] + 1


def main():
    v = c()
    i = 0
    while i < 100000:
        add_one(v)
        i = i + 1
    print(v[1][2][3])


main()
