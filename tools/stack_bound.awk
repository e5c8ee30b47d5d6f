# How deep the stack of functions can go, from their code: what each takes for itself, and what the deepest of those
# takes that it calls. Reads `objdump -d --no-show-raw-insn` of an x86-64 program; -v wanted="NAME NAME .." are the
# functions.
# Prints "NAME BYTES" for each, the return address among the bytes. What is outside of the program, as memmove, counts
# as its return address alone.
# A function may call itself where -v nested="NAME=TIMES .." tells how many of its calls there can be within each other:
# it then counts so many times.
# It fails where this cannot be told: another function that calls itself, directly or through others, a call through a
# pointer, or a stack pointer that is set in a way not known here.

function fail(why) {
    print "stack_bound: " (at == "" ? "" : at ": ") why > "/dev/stderr"
    exit failed = 1
}

# The value of a number in hexadecimal, of at most 13 digits.
function value(hex,    i, n) {
    sub(/^0x/, "", hex)
    if (length(hex) > 13) fail("a number is too large: 0x" hex)
    for (i = 1; i <= length(hex); i++) n = 16 * n + index("0123456789abcdef", substr(hex, i, 1)) - 1
    return n
}

# How far below 0 a number of 16 digits is.
function below_zero(hex) {
    sub(/^0xffff*/, "", hex)
    return 16 ^ length(hex) - value("0x" hex)
}

# The first number in hexadecimal of an operand.
function number_in(text) {
    match(text, /0x[0-9a-f]+/)
    return substr(text, RSTART, RLENGTH)
}

# What an instruction takes of the stack.
function taken_by(name, operands,    n) {
    if (name ~ /^push/) return 8
    if (operands !~ /,%rsp$/) return 0
    n = number_in(operands)
    if (name ~ /^sub/ && operands ~ /^\$0x/) return length(n) > 16 ? 0 : value(n)
    if (name ~ /^add/ && operands ~ /^\$0x/) return length(n) > 16 ? below_zero(n) : 0
    if (name ~ /^and/ && operands ~ /^\$0xf/) return below_zero(n) - 1
    if (name ~ /^lea/ && operands ~ /^-0x[0-9a-f]+\(%rsp\),/) return value(n)
    if (name ~ /^lea/ && operands ~ /^(0x[0-9a-f]+)?\(%rsp\),/) return 0
    if (name ~ /^(lea|mov)/ && operands ~ /%rbp\)?,%rsp$/) return 0
    if (name ~ /^(cmp|test)/) return 0
    fail("the stack pointer is set by " name " " operands)
}

# What an instruction gives back of the stack at once.
function gives_back(name, operands) {
    if (name !~ /^add/ || operands !~ /^\$0x[0-9a-f]+,%rsp$/ || length(operands) > 16) return 0
    return value(number_in(operands))
}

# A large frame is taken a page at a time, in a loop that ends where the stack pointer is at %r11, which is set before.
function begins_pages(name, operands) {
    return name ~ /^(lea|sub)/ && operands ~ /^(-0x[0-9a-f]+\(%rsp\)|\$0x[0-9a-f]+),%r11$/
}

/^[0-9a-f]+ <.*>:$/ {
    at = $2
    gsub(/^<|>:$/, "", at)
    own[at] = 0
    pages = 0
    next
}

at == "" || !/^ *[0-9a-f]+:\t/ { next }

{
    sub(/^ *[0-9a-f]+:\t/, "")
    # Through the table of what is outside, as in: call *0x2e1f(%rip)        # 3fd8 <memmove@GLIBC_2.2.5>
    if ($0 ~ /^(call|jmp) +\*0x[0-9a-f]+\(%rip\) +# .*<[^>]+@[^>]+>/) {
        calls[at] = calls[at] " outside@plt"
        next
    }
    sub(/ *#.*/, "")
    sub(/^(notrack|bnd|lock|rep|repz|repnz|addr32|data16) +/, "")
    name = $1
    operands = $2
    for (i = 3; i <= NF; i++) if ($i !~ /^</) operands = operands $i
    if (begins_pages(name, operands)) {
        pages = 1
        own[at] += value(number_in(operands))
    } else if (pages && operands ~ /^%r11,%rsp$/) {
        pages = 0
    } else if (!(pages && name ~ /^sub/)) {
        own[at] += taken_by(name, operands)
    }
    if (gives_back(name, operands) > own[at]) fail("more of the stack is given back than was taken")
    # Below the stack pointer, in the red zone.
    if (name !~ /^lea/ && match(operands, /-0x[0-9a-f]+\(%rsp/)) {
        n = value(number_in(substr(operands, RSTART, RLENGTH)))
        if (n > red[at]) red[at] = n
    }
    if (name ~ /^call/ && operands ~ /^\*/) pointers[at] = 1
    if (name ~ /^(call|j)/ && match($0, /<.*>/)) {
        to = substr($0, RSTART + 1, RLENGTH - 2)
        sub(/\+0x[0-9a-f]+$/, "", to)
        if (name ~ /^call/ || to != at) calls[at] = calls[at] " " to
    }
}

function deepest(f,    list, count, i, d, most) {
    if (f ~ /@plt$/) return 8
    if (!(f in own)) { at = f; fail("has no code") }
    if (f in bound) return bound[f]
    if (f in within) { at = f; fail("calls itself") }
    if (f in pointers) { at = f; fail("calls through a pointer") }
    within[f] = 1
    count = split(calls[f], list, " ")
    for (i = 1; i <= count; i++) {
        if (list[i] == f && f in times) continue
        d = deepest(list[i])
        if (d > most) most = d
    }
    delete within[f]
    return bound[f] = (8 + own[f] + red[f]) * (f in times ? times[f] : 1) + most
}

END {
    if (failed) exit 1
    count = split(nested, names, " ")
    for (i = 1; i <= count; i++) {
        split(names[i], parts, "=")
        times[parts[1]] = parts[2]
    }
    count = split(wanted, names, " ")
    for (i = 1; i <= count; i++) print names[i], deepest(names[i])
}
