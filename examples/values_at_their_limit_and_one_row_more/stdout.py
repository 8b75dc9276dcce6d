"""32,768 rows of two columns stand, and one row more only with one column. The join with a third table has three."""
ROWS = {"o": 1, "s": 128, "t": 256}


def block(version, states, names, count=None, total=None):
    print(f"version {version} main")
    for place, state in enumerate(states, 1):
        print(f"cell {place} {state}")
    for name in sorted(names + ["r"] if count else names):
        print(f"dataset {name}")
        if name == "r":
            print(f"  columns n int, x int\n  []: {count}, {total}")
            continue
        print("  columns n int")
        for n in range(1, ROWS[name] + 1):
            print(f"  #{n}: {n}")
    print(f"end {version}")


OF_S = sum(range(1, 129)) * 256
TABLES = ["#1 ok", "#2 ok", "#3 ok"]
NAMES = ["t", "s", "o"]
for version in (1, 2, 3):
    block(version, TABLES[:version], NAMES[:version])
block(4, TABLES + ["#4 error NoDataset"], NAMES)
block(5, TABLES + ["#5 ok", "#4 ok"], NAMES, 32768, OF_S)
block(6, TABLES + ["#6 error TooLarge", "#4 blocked"], NAMES)
block(7, TABLES + ["#7 ok", "#4 ok"], NAMES, 32769, OF_S + 1)
for version in (8, 9, 10):
    block(version, TABLES + [f"#{version} error TooLarge", "#4 blocked"], NAMES)
