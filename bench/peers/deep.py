import sys

sys.setrecursionlimit(2000)


def depth(n):
    if 0 < n:
        return depth(n - 1) + 1
    return 0


def main():
    i = 0
    s = 0
    while i < 100:
        s = s + depth(998)
        i = i + 1
    print(s)


main()
