# Reads the trace that `qemu-x86_64 -d in_asm,exec,nochain` writes: each block of instructions in full
# where it is translated, and a line each time it is run. Prints how many instructions were run, how
# many of them multiply whole numbers and how many divide them: of the whole program, or, if it calls
# `mark`, a line for each two calls of that: what was run between them.

# IN: main
/^IN:/ {
    fresh = 1
    next
}

# 0x00401600:  31 ed                    xorl     %ebp, %ebp
# A line that goes on with the bytes of a long instruction has nothing after them.
/^0x/ {
    if (fresh) {
        block = place(substr($1, 3, length($1) - 3))
        instructions[block] = multiplies[block] = divides[block] = 0
        fresh = 0
    }
    sub(/^0x[0-9a-f]+:  ([0-9a-f][0-9a-f]( |$))+ */, "")
    if ($0 == "") next
    instructions[block]++
    if ($0 ~ /^i?mul[bwlq]? /) multiplies[block]++
    if ($0 ~ /^i?div[bwlq]? /) divides[block]++
    next
}

# Trace 0: 0x7fd718000100 [0000000000000000/0000000000401600/1040c0b3/00000201] _start
/^Trace/ {
    if ($NF == "mark") {
        if (marks++ % 2 == 1) report()
        all = mul = div = 0
        next
    }
    split($0, part, "/")
    at = place(part[2])
    all += instructions[at]
    mul += multiplies[at]
    div += divides[at]
}

# An address without the zeros in front.
function place(digits) {
    sub(/^0+/, "", digits)
    return digits
}

function report() { print all, mul, div }

END { if (marks == 0) report() }
