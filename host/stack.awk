# How many bytes of stack each exported function of an archive needs at most, its callees' and its return address included:
#   objdump -dr --no-show-raw-insn libngachodui.a | awk -f host/stack.awk
#   4816 ngachodui_byte
# A function is counted with all that it ever pushes and subtracts, so with too much rather than too little, and with the 128
# bytes below the stack's end that one may use which calls nothing. What memcpy, memmove and memset need is the host's. The readers of `owner` call each other, and each time for a record that stands deeper
# (crates/owner/src/runs.rt): at most as often as there are depths. Any other recursion, a call through a pointer, or a stack
# that grows by what is in a register is an error.
BEGIN {
    DEPTHS = 5
    RED_ZONE = 128
}

function fail(what) {
    print "stack.awk: " what > "/dev/stderr"
    failed = 1
    exit 1
}

# A relocation's or a call's target, as a function's name.
function named(target) {
    sub(/[-+]0x[0-9a-f]+$/, "", target)
    sub(/^\.text\./, "", target)
    return target
}

function hex(digits,    value, i) {
    for (i = 1; i <= length(digits); i++)
        value = 16 * value + index("0123456789abcdef", substr(digits, i, 1)) - 1
    return value
}

function calls(target) {
    target = named(target)
    if (target ~ /^\.(rodata|data|bss|L)/)
        return
    if (!((this, target) in seen)) {
        seen[this, target] = 1
        callee[this, ++count[this]] = target
    }
}

/^[0-9a-f]+ <.*>:$/ {
    this = $0
    gsub(/^[0-9a-f]+ <|>:$/, "", this)
    own[this] = 0
    next
}
/R_X86_64_/ { calls($NF); next }
$2 ~ /^push/ { own[this] += 8 }
$2 ~ /^sub/ && /,%rsp$/ {
    if ($3 !~ /^\$0x[0-9a-f]+,%rsp$/)
        fail(this ": " $0)
    operand = $3
    gsub(/^\$0x|,%rsp$/, "", operand)
    own[this] += hex(operand)
}
($2 ~ /^(and|lea|mov|xchg)/ && /,%rsp$/) || ($2 ~ /^call/ && /\*/) || $2 == "enter" { fail(this ": " $0) }
# A call without a relocation stays in its section, which is one function's.
$2 ~ /^call/ && /<[^+]*>$/ {
    target = $0
    gsub(/^.*<|>$/, "", target)
    calls(target)
}

# The need of a function, of which `on` says how often it is on the way already.
function need(name,    i, deepest, n) {
    if (!(name in own)) {
        if (name !~ /^mem(cpy|move|set)$/)
            fail("nothing is known of " name)
        return 8
    }
    if (on[name] == (name ~ /^owner::/ ? DEPTHS : 1)) {
        if (name !~ /^owner::/)
            fail(name " calls itself")
        return 0
    }
    on[name]++
    deepest = RED_ZONE
    for (i = 1; i <= count[name]; i++) {
        n = need(callee[name, i])
        if (n > deepest)
            deepest = n
    }
    on[name]--
    return 8 + own[name] + deepest
}

END {
    if (failed)
        exit 1
    for (name in own)
        if (name !~ /::/)
            print need(name), name
}
