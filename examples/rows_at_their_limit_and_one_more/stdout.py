"""65,536 rows stand, and their number is told; 65,537 don't, also where LIMIT would leave one of them."""
ROWS = {"o": 1, "s": 255, "t": 256}


def block(version, states, whole, bare, counted=None):
    """The tables of `whole` have their column still, those of `bare` none."""
    print(f"version {version} main")
    for place, state in enumerate(states, 1):
        print(f"cell {place} {state}")
    for name in sorted(whole + bare + (["r"] if counted else [])):
        print(f"dataset {name}")
        print("  columns" if name in bare else "  columns n int")
        if name == "r":
            print(f"  []: {counted}")
            continue
        for n in range(1, ROWS[name] + 1):
            print(f"  #{n}:" if name in bare else f"  #{n}: {n}")
    print(f"end {version}")


TABLES = [f"#{n} ok" for n in range(1, 7)]
for version in range(1, 7):
    names = ["t", "s", "o"][:(version + 1) // 2]
    bare = version // 2
    block(version, TABLES[:version], names[bare:], names[:bare])
block(7, TABLES + ["#7 error NoDataset"], [], ["o", "s", "t"])
block(8, TABLES + ["#8 ok", "#7 ok"], [], ["o", "s", "t"], 65536)
block(9, TABLES + ["#9 error TooLarge", "#7 blocked"], [], ["o", "s", "t"])
block(10, TABLES + ["#10 ok", "#7 ok"], [], ["o", "s", "t"], 65536)
block(11, TABLES + ["#11 error TooLarge", "#7 blocked"], [], ["o", "s", "t"])
