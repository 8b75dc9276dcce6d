"""The blocks of versions whose cells all make the dataset t; each new cell has its version's number."""


def block(version, branch, cells):
    print(f"version {version} {branch}")
    for place, cell in enumerate(cells, 1):
        print(f"cell {place} #{cell} ok")
    if cells:
        print("dataset t\n  columns a int\n  #1: 1")
    print(f"end {version}")


cells = []
for version in range(1, 48):
    cells = cells + [version]
    block(version, "main", cells)
for version in range(48, 63):
    cells = [version] + cells[1:]
    block(version, "main", cells)
cells = cells[:32] + [63] + cells[33:]
block(63, "main", cells)
block(64, "main", cells + [64])
print("line 65 refused E7 TooMany")
block(65, "main", cells)
block(66, "b", cells + [64])
