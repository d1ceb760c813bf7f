# Reads what 'objdump -dr' prints of the module's archive and prints for each entry an upper bound of the stack that a call of it takes, and the
# chain of calls that takes it. It trusts nothing that it does not understand: then it says so and ends with status 1.
#
# A function's frame is its return address, what it pushes, and what it takes off %rsp, at once, page by page or in a loop that touches each page;
# what it gives back at its end must be the same. A chain's end counts RED bytes that a function may use below %rsp. The copying functions of the
# C library count with ALLOWED bytes each.
BEGIN {
    RED = 128
    ALLOWED = 1024
    split("memcpy memset memmove", library, " ")
    for (i in library)
        outside[library[i]] = 1
    here = ""
}

function hex(text,    value, i) {
    value = 0
    for (i = 1; i <= length(text); i++)
        value = value * 16 + index("0123456789abcdef", substr(text, i, 1)) - 1
    return value
}

# the number in an operand '$0x..'
function amount(text) {
    sub(/.*\$0x/, "", text)
    sub(/[^0-9a-f].*/, "", text)
    return hex(text)
}

function give_up(why) {
    print "frames: " here ": " why
    broken = 1
}

/^[0-9a-f]+ <.*>:$/ {
    here = $0
    sub(/^[0-9a-f]+ </, "", here)
    sub(/>:$/, "", here)
    taken[here] = 0
    pushed[here] = 8
    looped = 0
    before = last = ""
    next
}

here == "" { next }

# a relocation: what the instruction before it calls or jumps to; one of another kind is a place in memory
/R_X86_64_(PLT32|PC32|GOTPCRELX?|REX_GOTPCRELX)/ {
    if (last ~ /^(call|jmp|j[a-z]+)[ \t]/) {
        target = $NF
        sub(/-0x4$/, "", target)
        sub(/^\.text\./, "", target)
        calls[here, ++count[here]] = target
        followed = 1
    }
    next
}

/^ *[0-9a-f]+:\t/ {
    if (last ~ /^call/ && !followed)
        give_up("a call that cannot be followed: " last)
    before = last
    last = $0
    sub(/^ *[0-9a-f]+:\t/, "", last)
    followed = 0
    if (last ~ /^push/)
        pushed[here] += 8
    else if (last ~ /^sub +\$0x[0-9a-f]+,%r11$/ && before ~ /^mov +%rsp,%r11$/) {
        taken[here] += amount(last)
        looped = 1
    } else if (last ~ /^sub +\$0x[0-9a-f]+,%rsp$/) {
        # the first after that is the loop's own step
        if (looped == 1)
            looped = 2
        else
            taken[here] += amount(last)
    } else if (last ~ /^add +\$0x[0-9a-f]+,%rsp$/)
        given[here, ++gifts[here]] = amount(last)
    else if (last ~ /^(sub|lea|and|mov|xchg|leave|enter).*,%rsp$|^leave|^enter/)
        give_up("the stack pointer is changed in a way that is not known: " last)
    else if (last ~ /^movslq \(.*,4\),%r[0-9a-z]+$/) {
        entry = last
        sub(/.*,/, "", entry)
        from_table[entry] = 1
    } else if (last ~ /^jmp +\*/) {
        entry = last
        sub(/.*\*/, "", entry)
        if (!from_table[entry])
            give_up("a jump that is no table's: " last)
        from_table[entry] = 0
    }
}

function depth(f, path,    i, target, most, d, at) {
    if (index(path, ">" f ">")) {
        here = f
        give_up("it calls itself")
        return 0
    }
    if (f in bound)
        return bound[f]
    most = RED
    for (i = 1; i <= count[f]; i++) {
        target = calls[f, i]
        if (target in outside)
            d = ALLOWED
        else if (target in taken)
            d = depth(target, path f ">")
        else {
            here = f
            give_up("it calls " target ", which is not in the archive")
            d = 0
        }
        if (d > most) {
            most = d
            deepest[f] = target
        }
    }
    bound[f] = pushed[f] + taken[f] + most
    return bound[f]
}

END {
    for (f in taken)
        for (i = 1; i <= gifts[f]; i++)
            if (given[f, i] != taken[f]) {
                here = f
                give_up("it takes " taken[f] " bytes and gives back " given[f, i])
            }
    for (f in taken)
        if (f ~ /^aestilumne_/) {
            chain = f " " pushed[f] + taken[f]
            total = depth(f, ">")
            for (at = f; at in deepest; at = deepest[at])
                chain = chain " > " deepest[at] " " (deepest[at] in taken ? pushed[deepest[at]] + taken[deepest[at]] : ALLOWED)
            print f, total, chain
        }
    exit broken
}
