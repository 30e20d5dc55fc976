# The stack that calls use, from the assembly text that the compiler wrote: for bench/stack.sh, which says what it takes for what.
#   awk -v machine=x86_64 -f bench/stack.awk NAMES FRAMES TEXT
# NAMES: the calls asked for, one a line. FRAMES: the compiler's .su file. TEXT: its .s file.
# It follows the stack pointer through each function, over every jump, so that it knows where it stands at each call. What it does not
# understand, and what no path bounds, stops it.

function stop(what) { print "stack: " what >"/dev/stderr"; failed = 1; exit 1 }

# The first number of a text, without its sign.
function number(text) { return match(text, /[0-9]+/) ? substr(text, RSTART, RLENGTH) + 0 : 0 }

function plain(name) { gsub(/"|@PLT/, "", name); return name }

# ---- Reading

FILENAME != last { last = FILENAME; file++ }
file == 1 { asked[$1] = 1; next }
file == 2 {
    split($0, part, "\t")
    sub(/^[^:]*:/, "", part[1])
    if (part[3] != "static") stop(part[1] " has no fixed frame")
    frame[part[1]] = part[2] + 0
    next
}

/^\t\.type\t.*function/ { f = plain($2); sub(/,.*/, "", f); first[f] = n + 1; order[++functions] = f; inside = 1; next }
/^\.Lfunc_end/ { final[f] = n; inside = 0; next }
/^\.LJTI/ { table = $1; sub(/:.*/, "", table); next }
!inside && /^\t\.[a-z]+\t.*\.LBB/ { match($0, /\.LBB[0-9_]*/); targets[table] = targets[table] " " substr($0, RSTART, RLENGTH) }
!inside { next }
{
    tail = /TAILCALL/
    if (machine == "x86_64") sub(/[ \t]*#.*/, ""); else sub(/[ \t]*\/\/.*/, "")
    if ($0 ~ /^[ \t]*$/ || $0 ~ /^\t\./ || /^"?[a-z]/) next
    n++
    text[n] = $0
    gsub(/[ \t]+/, " ", text[n])
    sub(/^ /, "", text[n])
    tails[n] = tail
}

# ---- One function: where its stack pointer stands, as bytes below where it stood when the function began

# What a line does to it. Whatever else writes to it is not understood.
function moved(line) {
    if (machine == "x86_64") {
        if (line ~ /^push/) return 8
        if (line ~ /^pop/) return -8
        if (line ~ /^subq \$[0-9]+, %rsp$/) return number(line)
        if (line ~ /^addq \$[0-9]+, %rsp$/) return -number(line)
        if (line ~ /^addq \$-[0-9]+, %rsp$/) return number(line)
        if (line ~ /^subq \$-[0-9]+, %rsp$/) return -number(line)
        if (line ~ /%rsp$/ || line ~ /^(leave|enter)/) stop("not understood: " line)
        return 0
    }
    if (line ~ /^sub sp, sp, #[0-9]+$/) return number(line)
    if (line ~ /^add sp, sp, #[0-9]+$/) return -number(line)
    if (line ~ /^sub sp, sp, #[0-9]+, lsl #12$/) return 4096 * number(line)
    if (line ~ /^add sp, sp, #[0-9]+, lsl #12$/) return -4096 * number(line)
    if (line ~ /\[sp, #-[0-9]+\]!$/) return number(substr(line, index(line, "[sp")))
    if (line ~ /\[sp\], #[0-9]+$/) return -number(substr(line, index(line, "[sp")))
    if (line ~ /^[a-z]+ sp,/ || line ~ /\[sp.*(!|\],.*)$/) stop("not understood: " line)
    return 0
}

# How far below the pointer it reaches: a function that calls none may use 128 bytes there on x86-64. In one that calls, such an address is a
# place in an array, counted from before its first.
function below(line) {
    if (machine == "x86_64") return match(line, /-[0-9]+\(%rsp/) ? number(substr(line, RSTART)) : 0
    return match(line, /\[sp, #-[0-9]+\]$/) ? number(substr(line, RSTART)) : 0
}

function is_call(op) { return op ~ /^call/ || op ~ /^blr?$/ }
function is_jump(op) { return machine == "x86_64" ? op ~ /^j/ : op ~ /^(b|br|b\..*|cbn?z|tbn?z)$/ }
function is_end(op) { return op ~ /^(jmp|ret|ud2|b$|br$|brk|udf)/ }

# Where a jump goes: the last word.
function goal(line) { sub(/.* /, "", line); return plain(line) }

function arrive(label, depth, f) {
    if (label in stands) {
        if (stands[label] != depth) stop(f " comes to " label " with two depths of stack")
        return
    }
    stands[label] = depth
    news = 1
}

# A call puts its return address behind what the caller holds; a jump to another function, at the end of one, hands its own on.
function called(f, to, depth, back) { calls[f]++; callee[f, calls[f]] = to; holds[f, calls[f]] = depth; backs[f, calls[f]] = back }

# One walk down the text. The labels behind it are known in the next; when nothing is new, what it sees is kept.
function walk(f, keep,    i, line, op, to, depth, known, tables, k, count, label, deep) {
    depth = 0; known = 1; tables = ""
    for (i = first[f]; i <= final[f]; i++) {
        line = text[i]
        if (line ~ /^\.L/) {
            label = line
            sub(/:.*/, "", label)
            if (known) arrive(label, depth, f)
            else if (label in stands) { depth = stands[label]; known = 1 }
            continue
        }
        if (!known) { if (keep) stop(f " has code that no jump reaches: " line); continue }
        if (match(line, /\.LJTI[0-9_]*/)) tables = tables " " targets[substr(line, RSTART, RLENGTH)]
        op = line
        sub(/ .*/, "", op)
        deep = depth + below(line)
        depth += moved(line)
        if (keep && depth > own[f]) own[f] = depth
        if (keep && deep > used[f]) used[f] = deep
        if (op ~ /^ret/ && depth != 0) stop(f " returns with " depth " bytes of stack left")
        if (is_call(op)) {
            to = goal(line)
            if (to ~ /^\*/ || op == "blr") stop(f " has a call through a pointer: " line)
            if (keep && depth < frame[f]) stop(f " calls above its frame")
            if (keep) { is_caller[f] = 1; called(f, to, depth, address) }
        } else if (is_jump(op)) {
            to = goal(line)
            if (to ~ /^\*/ || op == "br") {
                if (tails[i] || tables == "") stop(f " has a jump through a pointer: " line)
                count = split(tables, k, " ")
                for (; count > 0; count--) arrive(k[count], depth, f)
            } else if (to ~ /^\.L/) arrive(to, depth, f)
            else if (keep) called(f, to, depth, 0)
        }
        if (is_end(op)) known = 0
    }
}

function study(f) {
    split("", stands)
    do { news = 0; walk(f, 0) } while (news)
    walk(f, 1)
    if (!is_caller[f] && used[f] > own[f]) own[f] = used[f]
    if (!(f in frame)) stop("the compiler tells no frame of " f)
    if (own[f] < frame[f]) stop(f " has a frame of " frame[f] " bytes, and only " own[f] " were seen")
}

# ---- Paths

# The most that a call of f uses, without f's return address: its own deepest, or that of a call. A function of the C library has no frame
# here, only its return address.
function depth_of(f,    i, g, d) {
    if (f in deepest) return deepest[f]
    if (f in open) stop(f " is called from below itself, so no path bounds it")
    open[f] = 1
    d = own[f] + 0
    for (i = 1; i <= calls[f]; i++) {
        g = holds[f, i] + backs[f, i] + (callee[f, i] in first ? depth_of(callee[f, i]) : 0)
        if (g > d) { d = g; via[f] = callee[f, i] in first ? i : 0 }
    }
    delete open[f]
    return deepest[f] = d
}

# Each function on the deepest path, with what it has on the stack there: its return address, saved registers, frame, and arguments that it
# hands down. Their sum is the call's.
function path_of(f,    s, back) {
    back = address
    while (via[f]) {
        s = s f " " back + holds[f, via[f]] " > "
        back = backs[f, via[f]]
        f = callee[f, via[f]]
    }
    return s f " " back + deepest[f]
}

function reach(f,    i) {
    if (f in seen) return
    seen[f] = 1
    for (i = 1; i <= calls[f]; i++) reach(callee[f, i])
}

function library_of(f,    g, s, names, i) {
    split("", seen)
    reach(f)
    split("memcmp memcpy memmove memset", names, " ")
    for (i = 1; i <= 4; i++) if (names[i] in seen) { s = s (s == "" ? "" : ", ") names[i]; delete seen[names[i]] }
    for (g in seen) if (!(g in first)) s = s (s == "" ? "" : ", ") g
    return s == "" ? "" : ", and " s " of the C library"
}

# What a function holds at most without those that it calls, its return address too.
function largest(f, most,    g, k, best) {
    print "largest frames on the paths of " f ":"
    split("", seen)
    reach(f)
    for (k = 1; k <= most; k++) {
        best = ""
        for (g in seen) if (g in first && (best == "" || own[g] > own[best] || own[g] == own[best] && g < best)) best = g
        if (best == "") return
        printf "%7d %s\n", address + own[best], best
        delete seen[best]
    }
}

END {
    if (failed) exit 1
    address = machine == "x86_64" ? 8 : 0
    for (i = 1; i <= functions; i++) study(order[i])
    for (f in asked) if (!(f in first)) stop("no code for " f)
    sorter = "sort"
    for (f in asked) { depth_of(f); print f " " address + deepest[f] " bytes: " path_of(f) library_of(f) | sorter }
    close(sorter)
    largest("dem_write_block", 10)
    largest("dem_deliver", 10)
}
