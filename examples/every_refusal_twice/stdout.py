"""The report of that stream, by the rules of docs/FORMATS.md."""
NAMES = {1: "BadJson", 2: "BadEdit", 3: "NoBranch", 4: "NoVersion", 5: "NoCell", 6: "BranchTaken",
         7: "TooMany", 8: "NoFile", 11: "LineTooLong"}


def refused(line, number):
    print(f"line {line} refused E{number} {NAMES[number]}")


def block(version):
    print(f"version {version} main")
    for position in range(1, version + 1):
        print(f"cell {position} #{position} ok")
    print(f"dataset t\n  columns a int\nend {version}")


for line, number in enumerate([1, 1, 2, 2, 3, 3, 4, 4, 5, 5], 1):
    refused(line, number)
block(1)
refused(12, 6)
refused(13, 6)
for version in range(2, 49):
    block(version)
for line, number in enumerate([7, 7, 8, 8, 11, 11], 61):
    refused(line, number)
