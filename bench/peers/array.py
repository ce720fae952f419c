def main():
    a = [1] * 100000
    i = 0
    while i < len(a):
        a[i] = i * 2
        i = i + 1
    s = 0
    i = 0
    while i < len(a):
        s = s + a[i]
        i = i + 1
    print(s)

main()
