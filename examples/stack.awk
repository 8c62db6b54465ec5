# Reads `objdump -r`, a line "== code" and `objdump -tdr --no-show-raw-insn` of a static library for x86-64, and prints for each entry point (dm_*)
# how many bytes of stack it takes at most: its return address, the most that any way through its code pushes and reserves, the same of what it calls
# there, and the 128 bytes below the stack pointer that the last function may use. A jump goes on at its target with the stack as it stands, so that
# a call that a function ends with is followed as well. memcpy, memmove and memset, which the host links, are counted by their return address alone,
# and the entry points that come to them are marked.
#
# It fails where there is no such number, or where it cannot tell: a function that calls itself, alone or in a circle; a call of anything else
# outside the library; a call or a jump through a pointer; a stack that grows by a register, in a loop, or by one way more than by another.
#
# A place is a member of the library, a section and an address. Of the instruction at a place there are its name (op), its operands (args), its
# relocation (refers), the function that it is in, and the places of the next one and of the one before (behind, ahead).

function fail(why) {
    print "stack: " why > "/dev/stderr"
    failed = 1
    exit 1
}

# A place's member, section or address.
function part(place, which,    parts) {
    split(place, parts, SUBSEP)
    return parts[which]
}

function hex(digits,    n, i) {
    n = 0
    for (i = 1; i <= length(digits); i++) n = 16 * n + index("0123456789abcdef", substr(digits, i, 1)) - 1
    return n
}

# The first number in a text: 0x18, -0x18, or sixteen digits for a negative one, whose distance from 2 to the 64th is summed digit by digit.
function number(text,    sign, i, n) {
    match(text, /-?0x[0-9a-f]+/)
    text = substr(text, RSTART, RLENGTH)
    sign = sub(/^-/, "", text) ? -1 : 1
    text = substr(text, 3)
    if (length(text) < 16 || text ~ /^[0-7]/) return sign * hex(text)
    n = 1
    for (i = 1; i <= 16; i++) n += (16 - index("0123456789abcdef", substr(text, i, 1))) * 16 ^ (16 - i)
    return -sign * n
}

# Where a relocation of a member leads (SYMBOL, SYMBOL-0x4), so many bytes further: a place, or the name of a symbol that the library lacks.
function led(m, to, further,    base, sign) {
    sign = match(to, /[-+]0x[0-9a-f]+$/)
    if (sign) {
        further += number(substr(to, sign))
        to = substr(to, 1, sign - 1)
    }
    if ((m, to) in sections) return m SUBSEP to SUBSEP further
    if ((m, to) in places) base = places[m, to]
    else if (to in exported) base = exported[to]
    else return to
    return part(base, 1) SUBSEP part(base, 2) SUBSEP (part(base, 3) + further)
}

# Where the call or the jump at a place leads. One without a relocation stays in its section.
function target(place) {
    if (place in refers) return led(part(place, 1), refers[place], 4)
    return part(place, 1) SUBSEP part(place, 2) SUBSEP hex(substr(args[place], 1, index(args[place] " ", " ") - 1))
}

# Where the table begins that the jump at a place takes its target from: the register that it jumps by was loaded from base + 4 * index, and the
# base holds the table's address; from r13 it is written with a distance of 0. Nothing where the jump has another form.
function table(place,    to, base, p) {
    to = substr(args[place], 2)
    for (p = ahead[place]; p != "" && args[p] !~ ("^(0x0)?\\(%r[a-z0-9]+,%r[a-z0-9]+,4\\)," to "$"); p = ahead[p])
        if (op[p] ~ /^(j|call|ret)/) return ""
    if (op[p] != "movslq") return ""
    base = substr(args[p], index(args[p], "(") + 1)
    base = substr(base, 1, index(base, ",") - 1)
    for (p = ahead[p]; p != "" && args[p] !~ ("," base "$"); p = ahead[p]) {}
    return op[p] == "lea" && args[p] ~ /^0x0\(%rip\),/ && p in refers ? led(part(p, 1), refers[p], 4) : ""
}

# The places that the table of the jump at a place names; answers how many.
function entries(place, list,    begin, at, i, n) {
    begin = table(place)
    for (i = 0; begin != ""; i += 4) {
        at = part(begin, 1) SUBSEP part(begin, 2) SUBSEP (part(begin, 3) + i)
        if (!(at in words) || i > 0 && at in begins) break
        list[++n] = led(part(begin, 1), words[at], -i)
    }
    if (!n) fail(inside[place] " jumps through a pointer")
    return n
}

# Where the code may go on behind the instruction at a place; answers how many places there are.
function ways(place, list,    n) {
    if (op[place] ~ /^(ret|ud2)/) return 0
    if (op[place] == "jmp" && args[place] ~ /^\*/) return entries(place, list)
    if (op[place] != "jmp") list[++n] = behind[place]
    if (op[place] ~ /^(j|loop)/) list[++n] = target(place)
    return n
}

# Does an instruction move the stack pointer by other means than a call does?
function moves(name, text) {
    if (name ~ /^(push|pop)[fw]?$|^(enter|leave)$/) return 1
    if (name ~ /^xchg/) return text ~ /%(rsp|esp|sp|spl)(,|$)/
    return name !~ /^(cmp|test)/ && text ~ /%(rsp|esp|sp|spl)$/
}

# How many bytes an instruction adds to a stack of so many; `frame` is what the frame pointer stands at, 0 where there is none. To align the stack
# takes at most 8 bytes less than the alignment, since it always holds words of 8.
function growth(place, deep, frame,    name, text) {
    name = op[place]
    text = args[place]
    if (!moves(name, text)) return 0
    if (name ~ /^pushf?$/) return 8
    if (name ~ /^popf?$/ && text != "%rsp") return -8
    if (name == "leave" && frame) return frame - 8 - deep
    if (name == "mov" && text == "%rbp,%rsp" && frame) return frame - deep
    if (name == "lea" && text ~ /^-?0x[0-9a-f]+\(%rbp\),%rsp$/ && frame) return frame - number(text) - deep
    if (name == "lea" && text ~ /^-?0x[0-9a-f]+\(%rsp\),%rsp$/) return -number(text)
    if (name == "sub" && text ~ /^\$0x[0-9a-f]+,%rsp$/) return number(text)
    if (name == "add" && text ~ /^\$0x[0-9a-f]+,%rsp$/) return -number(text)
    if (name == "and" && text ~ /^\$0xf+[0-9a-f]*0,%rsp$/) return -number(text) - 8
    fail(inside[place] " grows its stack by a register")
}

# Something outside the library that a function comes to.
function outside(start, name) {
    if (name !~ /^(memcpy|memmove|memset)$/) fail(inside[start] " calls " name ", which is not in the library")
    if (index(marks[start] " ", " " name " ") == 0) marks[start] = marks[start] " " name
}

# What the call at a place of a function that starts there adds below it.
function below(start, place,    to, list, n, i) {
    if (args[place] ~ /^\*/) fail(inside[place] " calls through a pointer")
    to = target(place)
    if (index(to, SUBSEP) == 0) {
        outside(start, to)
        return 8
    }
    i = deepest(to)
    n = split(marks[to], list, " ")
    for (; n > 0; n--) outside(start, list[n])
    return i
}

# How many bytes of stack a function takes at most, its return address among them. Every instruction that it comes to has one depth.
function deepest(start,    deep, todo, n, place, now, most, saved, frame, list, i) {
    if (start in known) return known[start]
    if (start in busy) fail(inside[start] " comes to call itself")
    busy[start] = 1
    deep[start] = most = 8
    todo[n = 1] = start
    while (n > 0) {
        place = todo[n--]
        if (!(place in op) || op[place] == "(bad)") fail(inside[start] " goes on where there is no code")
        now = deep[place]
        if (op[place] ~ /^ret/ && now != 8) fail(inside[place] " returns with " now " bytes on its stack")
        if (op[place] == "push" && args[place] == "%rbp" && now == 8) saved = 1
        if (op[place] == "mov" && args[place] == "%rsp,%rbp" && saved && now == 16) frame = 16
        if (op[place] == "call") most = max(most, now + below(start, place))
        now += growth(place, now, frame)
        most = max(most, now)
        for (i = ways(place, list); i > 0; i--) {
            if (index(list[i], SUBSEP) == 0 && list[i] != "") outside(start, list[i])
            else if (!(list[i] in deep)) { deep[list[i]] = now; todo[++n] = list[i] }
            else if (deep[list[i]] != now) fail(inside[place] " grows its stack in a loop, or by one way more than by another")
        }
    }
    delete busy[start]
    return known[start] = most
}

function max(a, b) { return a > b ? a : b }

/^== code$/ { code = 1; member = 0; next }
/file format elf64-x86-64$/ { member++; symbols = 0; next }
/file format/ { fail("code for another machine: " $0) }

# Relocations. Those in data are wanted here: the tables of jumps.
/^RELOCATION RECORDS FOR / { section = substr($4, 2, length($4) - 3); next }
!code && $2 ~ /^R_X86_64_/ { words[member, section, hex($1)] = $3 }
!code { next }

# Symbols: VALUE, seven letters, SECTION, a tab, SIZE, NAME.
/^SYMBOL TABLE:$/ { symbols = 1; next }
symbols && /\t/ && !/^Disassembly/ {
    section = substr($0, 26, index($0, "\t") - 26)
    if (section ~ /^\./) sections[member, section] = 1
    if (substr($0, 18, 7) !~ /F/ || section == "*UND*") next
    places[member, $NF] = member SUBSEP section SUBSEP hex($1)
    if (substr($0, 18, 1) != "l") exported[$NF] = places[member, $NF]
    next
}

# Code: a section, a function, an instruction, its relocation.
/^Disassembly of section / { symbols = 0; section = substr($4, 1, length($4) - 1); next }
/^[0-9a-f]+ <.*>:$/ { name = substr($2, 2, length($2) - 3); last = ""; next }
/^ *[0-9a-f]+:\t/ {
    here = member SUBSEP section SUBSEP hex(substr($1, 1, length($1) - 1))
    for (i = 2; $i ~ /^(notrack|bnd|rep|repz|repnz|lock|data16|cs|ds|es|rex\.W)$/; i++) {}
    op[here] = $i
    if (op[here] ~ /^(call|jmp|push|pop|ret|leave)q$/) sub(/q$/, "", op[here])
    text = ""
    for (i++; i <= NF && $i !~ /^#/; i++) text = text (text == "" ? "" : " ") $i
    args[here] = text
    inside[here] = name
    ahead[here] = last
    if (last != "") behind[last] = here
    last = here
    next
}
/^\t+[0-9a-f]+: R_X86_64_/ {
    refers[last] = $3
    if (op[last] == "lea") begins[led(member, $3, 4)] = 1
}

END {
    if (failed) exit 1
    for (symbol in exported) {
        deepest(exported[symbol])
        if (symbol ~ /^dm_/) entry[++count] = symbol
    }
    if (!count) fail("no entry point dm_* is found")
    sorted = "sort"
    for (i = 1; i <= count; i++) {
        bytes = deepest(exported[entry[i]]) + 128
        worst = max(worst, bytes)
        printf "%-22s %5d%s\n", entry[i], bytes, marks[exported[entry[i]]] == "" ? "" : "  and what" marks[exported[entry[i]]] " take" | sorted
    }
    close(sorted)
    printf "%d entry points, at most %d bytes of stack\n", count, worst
}
