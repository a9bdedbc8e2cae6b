# Writes a module in which many uses of fields stand behind long chains of types, to standard output.
# Usage: fields.py SHAPE USES LENGTH
#   renamings  uses of one field behind so many renamings
#   pointers   uses of one field behind so many pointers
#   bases      uses of one field behind so many bases
#   both       uses of one field behind so many bases, each by a renaming
#   records    uses of one field, each of another record in a chain of so many bases
#   names      uses of as many fields, all behind so many bases
#   round      uses of as many names that no record has, at so many bases that come back to one another
import sys

shape, uses, length = sys.argv[1], int(sys.argv[2]), int(sys.argv[3])
names = [f"f{i}" for i in range(uses)] if shape in ("names", "round") else ["f"]
print("MODULE Fields;\nTYPE")
if shape == "round":
    print(f"  P = POINTER TO T{length};\n  T0 = RECORD (P) g0: INTEGER END;")
else:
    print(f"  T0 = RECORD {', '.join(names)}: INTEGER END;")
for i in range(1, length + 1):
    last = f"T{i - 1}"
    if shape == "renamings":
        print(f"  T{i} = {last};")
    elif shape == "pointers":
        print(f"  T{i} = POINTER TO {last};")
    elif shape == "both":
        print(f"  N{i} = {last};\n  T{i} = RECORD (N{i}) END;")
    else:
        print(f"  T{i} = RECORD ({last}) g{i}: INTEGER END;")
print("VAR")
for i in range(length + 1) if shape == "records" else [length]:
    print(f"  x{i}: T{i};")
print("BEGIN")
for i in range(uses):
    variable = length - i % (length + 1) if shape == "records" else length
    print(f"  x{variable}.{names[i % len(names)]} := 0;")
print("END Fields.")
