"""The texts of just 1,048,576 bytes stand; a byte more, the `<` of a union in each id, or a byte more by || don't."""


def block(version, states, counted=None, small=False):
    """`counted` has what the last cell tells of the texts; where they are `small`, u is left as it was."""
    print(f"version {version} main")
    for place, state in enumerate(states, 1):
        print(f"cell {place} {state}")
    print("dataset t\n  columns n int")
    for n in range(1, 17):
        print(f"  #{n}: {n}")
    if counted:
        print(f"dataset u\n  columns n int, longest int, total int\n  []: {counted}")
    if small:
        print("dataset u\n  columns n int, s text")
        for n in range(1, 17):
            print(f'  #{n}: {n}, "{"x" * 512}"')
    print(f"end {version}")


block(1, ["#1 ok"])
block(2, ["#1 ok", "#2 error NoDataset"])
block(3, ["#1 ok", "#3 ok", "#2 ok"], "16, 512, 8192")
block(4, ["#1 ok", "#3 ok", "#4 ok", "#2 ok"], "16, 65536, 1048537")
block(5, ["#1 ok", "#3 ok", "#5 error TooLarge", "#2 blocked"], small=True)
block(6, ["#1 ok", "#3 ok", "#6 error TooLarge", "#2 blocked"], small=True)
block(7, ["#1 ok", "#3 ok", "#7 ok", "#2 ok"], "16, 5, 80")
block(8, ["#1 ok", "#3 ok", "#8 error TooLarge", "#2 blocked"], small=True)
