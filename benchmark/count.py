"""count.py METER BASELINE: the tables of the benchmark. See README.md beside this file."""
import re
import subprocess
import sys

ROUNDS = 40
LIBRARY = "marker layout lookup choice mirror search format refusal advance store console brake".split()


def instructions(program, units, width, mode, unit, count, page=1):
    """All instructions of one run, as callgrind counts them."""
    asked = bytes([units, width % 256, width // 256, mode, unit, ROUNDS, 0, count % 256, count // 256, page])
    run = subprocess.run(
        ["valgrind", "--tool=callgrind", "--callgrind-out-file=/dev/null", program],
        input=asked, capture_output=True, check=True)
    return int(re.search(rb"Collected : (\d+)", run.stderr).group(1))


def each(program, units, width, mode, page=1):
    """Instructions of one call in a loop: a whole write's calls in each round, less the same rounds with none."""
    stores = 2 * width + 3
    whole = instructions(program, units, width, mode, units - 1, stores, page)
    none = instructions(program, units, width, mode, units - 1, 0, page)
    return (whole - none) / (ROUNDS * stores)


def drive(program, mode):
    """Instructions of one drive in a loop over all rates of level 20, less the same run with none."""
    return (instructions(program, 1, 1, mode, 20, 256) - instructions(program, 1, 1, mode, 20, 0)) / 256


def frames(program):
    """What each function of the program takes off the stack, read from its code."""
    code = subprocess.run(["objdump", "-d", "-C", "--no-show-raw-insn", program], capture_output=True, text=True, check=True).stdout
    sizes, name = {}, None
    for line in code.splitlines():
        head = re.match(r"[0-9a-f]+ <(.*)>:", line)
        if head:
            name = head.group(1)
            sizes[name] = 8
        elif name and re.search(r"\tpush\s", line):
            sizes[name] += 8
        elif name and (m := re.search(r"\tsub\s+\$0x([0-9a-f]+),%rsp", line)):
            sizes[name] += int(m.group(1), 16)
    return sizes


def main():
    meter, baseline = sys.argv[1:3]
    print("instructions of one call    step    C      ratio   pass    C      ratio")
    for units in (1, 8):
        for width in (1, 16, 256):
            row = [each(program, units, width, mode) for mode in (0, 1) for program in (meter, baseline)]
            print(f"units {units}, width {width:3}        {row[0]:7.1f} {row[1]:6.1f} {row[0] / row[1]:7.2f} {row[2]:8.1f} {row[3]:6.1f} {row[2] / row[3]:7.2f}")
    print("\nwith pages of 16 bytes, width 16")
    for units in (1, 8):
        row = [each(program, units, 16, mode, 16) for mode in (0, 1) for program in (meter, baseline)]
        print(f"units {units}                   {row[0]:7.1f} {row[1]:6.1f} {row[0] / row[1]:7.2f} {row[2]:8.1f} {row[3]:6.1f} {row[2] / row[3]:7.2f}")
    print("\ninstructions of one drive")
    for mode, name in ((2, "drive"), (3, "drive over a table")):
        print(f"  {name:24} {drive(meter, mode):.1f}")
    print("\nstack, bytes a function")
    for name, size in sorted(frames(meter).items()):
        if name.split("::")[0] in LIBRARY:
            print(f"  {name:24} {size}")


main()
