"""The join past the limit is refused before its ON is looked at; the one at the limit pairs each row with itself."""


def block(version, states, counts, more=()):
    print(f"version {version} main")
    for place, state in enumerate(states, 1):
        print(f"cell {place} {state}")
    for name, rows in counts:
        print(f"dataset {name}")
        print("  columns n int")
        for n in range(1, rows + 1):
            print(f"  #{n}: {n}")
        for text in more if name == "c" else ():
            print(text)
    print(f"end {version}")


A, B, C, T = ("a", 109), ("b", 229), ("c", 641), ("t", 4000)
PAIRS = ["dataset j", "  columns n int", "  []: 4000"]
block(1, ["#1 ok"], [A])
block(2, ["#1 ok", "#2 ok"], [A, B])
block(3, ["#1 ok", "#2 ok", "#3 ok"], [A, B, C])
block(4, ["#1 ok", "#2 ok", "#3 ok", "#4 error TooLarge"], [A, B, C])
block(5, ["#1 ok", "#2 ok", "#3 ok", "#5 ok"], [A, B, C, T])
block(6, ["#1 ok", "#2 ok", "#3 ok", "#5 ok", "#6 ok"], [A, B, C, T], PAIRS)
