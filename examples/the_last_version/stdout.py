"""256 blocks of one cell, and a refusal for each line after them."""
for version in range(1, 257):
    branch = "main" if version == 1 else f"b{version - 1}"
    print(f"version {version} {branch}\ncell 1 #1 ok\ndataset t\n  columns a int\n  #1: 1\nend {version}")
print("line 257 refused E3 NoBranch")
print("line 258 refused E4 NoVersion")
print("line 259 refused E5 NoCell")
print("line 260 refused E6 BranchTaken")
print("line 261 refused E7 TooMany")
print("line 262 refused E7 TooMany")
