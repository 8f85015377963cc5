"""python3 tests/speed/frames.py PROGRAM [MOST]: from the program's machine code, the most stack that each exported call can take.
With MOST, a number of bytes, the exit status is 1 where a call can take more.

A call's need is its own frame, its return address and the largest need of what it calls; no function of ours calls itself or
calls through a pointer. What the C library's memcpy and memset take is left out: they push nothing.
"""

import re
import subprocess
import sys

WORD = 8
PAGE = 4096
CALLS = [
    *("gate_setup", "gate_judge", "gate_judge_one", "gate_fits", "gate_end", "gate_index"),
    *("carrier_sign", "carrier_verify"),
    *("scanner_begin", "scanner_sign", "scanner_hear"),
]


def number(text):
    """A hexadecimal number of 64 bits, with its sign."""
    return (int(text, 16) + (1 << 63)) % (1 << 64) - (1 << 63)


def listing(program):
    """Lines of (function, instruction, operands)."""
    text = subprocess.run(["x86_64-linux-gnu-objdump", "-d", "--no-show-raw-insn", program], check=True, capture_output=True, text=True).stdout
    function = None
    for line in text.splitlines():
        named = re.match(r"[0-9a-f]+ <(.*)>:$", line)
        if named:
            function = named[1]
        code = re.match(r" +[0-9a-f]+:\t(\w+) *(.*)", line)
        if code:
            yield function, code[1], code[2]


def frames(lines):
    """Of each function the largest depth of its own, and of each function that it calls the depth at the call."""
    own, called = {}, {}
    frame = depth = 0
    before = last = None
    for function, instruction, operands in lines:
        if function != before:
            before, frame, depth = function, 0, WORD
            own[function], called[function] = WORD, {}
        moved = re.match(r"\$(0x[0-9a-f]+),%rsp$", operands)
        if instruction == "push":
            depth += WORD
        elif instruction == "pop":
            depth -= WORD
        elif instruction == "sub" and moved:
            depth += number(moved[1])
        elif instruction == "sub" and last == ("mov", "%rsp,%r11"):
            # A frame of many pages is taken in a loop up to this place, and the loop's own page is counted where it stands.
            depth += number(re.match(r"\$(0x[0-9a-f]+),%r11$", operands)[1]) - PAGE
        elif instruction == "add" and moved:
            depth -= number(moved[1])
        elif instruction == "ret":
            depth = frame  # what follows is reached from within
        frame = max(frame, depth)
        last = instruction, operands
        below = re.search(r"-(0x[0-9a-f]+)\(%rsp", operands)  # a function that calls nothing may use what lies below
        own[function] = max(own[function], depth + (int(below[1], 16) if below else 0))
        target = re.search(r"<([^+>]*)>$", operands)
        if target and instruction in ("call", "jmp") and target[1] != function:
            called[function][target[1]] = max(depth, called[function].get(target[1], 0))
    return own, called


def deepest(function, own, called):
    """The need of a function, and the way down with each frame."""
    best, way = own[function], [(function, own[function])]
    for target, depth in called[function].items():
        if target in own and "@" not in target:
            below, rest = deepest(target, own, called)
            if depth + below > best:
                best, way = depth + below, [(function, depth)] + rest
    return best, way


def main(program, most=None):
    own, called = frames(listing(program))
    needs = []
    for name in CALLS:
        if name in own:
            need, way = deepest(name, own, called)
            print(f"{name} at most {need} bytes: " + ", ".join(f"{function} {size}" for function, size in way))
            needs.append(need)
    return 1 if not needs or (most and max(needs) > int(most)) else 0


if __name__ == "__main__":
    sys.exit(main(*sys.argv[1:]))
