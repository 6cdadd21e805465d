# Reads the header and then the archive's code, as `objdump -dr --no-show-raw-insn` prints it, and says of each function that the header has a stack for
# whether that is enough for the deepest way through its code, with a fifth more. What a function takes by itself is all that it pushes and by how much it
# lowers the stack pointer, taken together. The C library's memory functions count as nothing.

function number(hexadecimal,    n, k) {
    n = 0
    for (k = 1; k <= length(hexadecimal); k++)
        n = 16 * n + index("0123456789abcdef", substr(hexadecimal, k, 1)) - 1
    return n
}

# The hexadecimal number of an operand such as $0x58,%rsp.
function immediate(operand,    parts) {
    split(operand, parts, /[x,]/)
    return number(parts[2])
}

# How deep the stack is below a call of a function. One that calls itself has no depth.
function depth(name,    callees, count, k, below, most) {
    if (name in known)
        return known[name]
    if (entered[name]++) {
        print name " calls itself"
        exit 1
    }
    most = 0
    count = split(calls[name], callees, " ")
    for (k = 1; k <= count; k++) {
        below = depth(callees[k])
        if (below > most)
            most = below
    }
    return known[name] = own[name] + most
}

$1 == "#define" && $2 ~ /^LIZSOMDUR_VERSION_MAJOR$/ { major = $3 }
$1 == "#define" && $2 ~ /^LIZSOMDUR_STACK_/ { stack[tolower(substr($2, 17))] = $3 }

/^[0-9a-f]+ <.*>:$/ {
    name = substr($2, 2, length($2) - 3)
    own[name] = 8
}
$2 == "push" { own[name] += 8 }
$2 == "sub" && $3 ~ /^\$0x[0-9a-f]+,%rsp$/ { own[name] += immediate($3) }
# a loop lowers it to r11 page by page; one page is counted there
$2 == "sub" && $3 ~ /^\$0x[0-9a-f]+,%r11$/ { own[name] += immediate($3) - 4096 }
$2 ~ /^(sub|add|and|lea|mov)$/ && $3 ~ /,%rsp$/ && $3 !~ /^\$0x[0-9a-f]+,%rsp$/ { print name " takes an amount that is worked out: " $3 }
$2 == "call" && $3 ~ /^\*/ { print name " calls what is worked out: " $3 }
$2 ~ /^R_X86_64_PLT32/ {
    callee = $3
    sub(/^\.text\./, "", callee)
    sub(/-0x[0-9a-f]+$/, "", callee)
    calls[name] = calls[name] " " callee
}

END {
    for (name in own)
        if (sub("^lizsomdur_" major "_", "", name) && !(name in stack))
            print "lizsomdur_" name " has no stack in the header"
    for (name in stack) {
        deepest = depth("lizsomdur_" major "_" name)
        print "lizsomdur_" name ": " (deepest > 0 && 6 * deepest <= 5 * stack[name] ? "within" : "beyond") " its stack by its code, with a fifth more"
    }
}
