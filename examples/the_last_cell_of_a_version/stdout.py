"""Blocks of up to 48 cells that all make the dataset t; each new cell has its version's number."""


def block(version, cells):
    print(f"version {version} main")
    for place, cell in enumerate(cells, 1):
        print(f"cell {place} #{cell} ok")
    print(f"dataset t\n  columns a int\nend {version}")


for version in range(1, 49):
    block(version, range(1, version + 1))
print("line 49 refused E7 TooMany")
print("line 50 refused E7 TooMany")
print("line 51 refused E5 NoCell")
replaced = list(range(1, 48)) + [49]
block(49, replaced)
block(50, replaced[1:])
block(51, replaced[1:] + [51])
