# Reads figures, lines 'KIND CODE P CELL CALL WHO VALUE', of reads with the most of one column
# after it, and prints tables of each measure and a line for each bar. A new call has its table in
# tables() and its bars at the end.
# CODE is a number, with m data columns given the number, an m and that number: 1m4.

{
    row = $5 SUBSEP $2 SUBSEP $3 SUBSEP $4
    value[$1, row, $6] = $7
    if ($1 == "bytes" && $6 == "ours") rows[++count] = row
    if ($1 == "bytes") there[$5, $6] = 1
    if ($1 == "reads") value["most", row, $6] = $8
    if ($1 == "stack") stacks[++stack_count] = $5
    kinds[$1] = 1
}

# A figure, or "" where there is none. Copying the data is the same beside encode and
# broken.
function figure(kind, row, who) {
    if (who == "memcpy" && row ~ /^broken/) row = same_row(row, "encode", "", "")
    if (!((kind, row, who) in value)) return ""
    return kind == "instructions" ? value[kind, row, who] / value["bytes", row, who] : value[kind, row, who]
}

function ratio(kind, row, who,    a, b) {
    a = figure(kind, row, "ours"); b = figure(kind, row, who)
    return a == "" || b == "" || b == 0 ? "" : a / b
}

function code_name(code,    part) {
    split(code, part, "m")
    return codes[part[1]] (part[2] == "" ? "" : " m=" part[2])
}

function entry(x, digits, wide) {
    return x == "" ? sprintf(" %" wide "s |", "-") : sprintf(" %" wide "." digits "f |", x)
}

# Those who have one of the calls, in columns[1..]. Gives how many.
function columns_of(list,    calls, n, c, w, found) {
    n = split(list, calls, " ")
    split("", columns)
    for (w = 1; w in whos; w++) for (c = 1; c <= n; c++) if ((calls[c], whos[w]) in there) {
        columns[++found] = w
        break
    }
    return found
}

function table(kind, title, list,    calls, n, c, r, w, wide, part, line, rule) {
    wide = columns_of(list)
    if (!(kind in kinds) || wide == 0) return
    printf "\n### %s\n\n", title
    line = "| call         | code    |  p | cell |"; rule = "|--------------|---------|---:|-----:|"
    for (w = 1; w <= wide; w++) { line = line sprintf(" %9s |", heads[columns[w]]); rule = rule "----------:|" }
    for (w = 2; w <= wide; w++) { line = line sprintf(" %11s |", "/ " heads[columns[w]]); rule = rule "------------:|" }
    print line; print rule
    n = split(list, calls, " ")
    for (c = 1; c <= n; c++) for (r = 1; r <= count; r++) {
        split(rows[r], part, SUBSEP)
        if (part[1] != calls[c]) continue
        line = sprintf("| %-12s | %-7s | %2d | %4d |", part[1], code_name(part[2]), part[3], part[4])
        for (w = 1; w <= wide; w++)
            line = line entry(figure(kind, rows[r], whos[columns[w]]), kind == "instructions" ? 3 : 2, 9)
        for (w = 2; w <= wide; w++)
            line = line entry(ratio(kind, rows[r], whos[columns[w]]), 2, 11)
        print line
    }
}

function tables(kind, title) {
    if (!(kind in kinds)) return
    printf "\n## %s\n", title
    table(kind, "Encode, broken, write", "encode broken write write-many")
    table(kind, "Rebuild and bad column", "two-columns one-column four-cells clean bad-column")
    table(kind, "Run by plan", "run run-rows run-balanced")
}

# A measure of the cells that a run reads beside another run's. They are as many whatever the size of a cell.
function reads(kind, call, other, title, mine, theirs,    r, part, x, y, last) {
    for (r = 1; r <= count; r++) if (rows[r] ~ "^" call SUBSEP) {
        split(rows[r], part, SUBSEP)
        if (part[2] SUBSEP part[3] == last) continue
        if (!last) {
            printf "\n## %s, and as a multiple (less is better)\n\n", title
            printf "| code    |  p | %13s | %13s |   ratio |\n", mine, theirs; print "|---------|---:|--------------:|--------------:|--------:|"
        }
        last = part[2] SUBSEP part[3]
        x = value[kind, rows[r], "ours"]; y = value[kind, same_row(rows[r], other, "", ""), "ours"]
        printf "| %-7s | %2d | %13d |%s%s\n", code_name(part[2]), part[3], x, entry(y, 0, 13), entry(by(x, y), 2, 7)
    }
}

# All instructions of a call that goes over no data, or over little.
function counts(call, title,    r, part, head) {
    for (r = 1; r <= count; r++) if (rows[r] ~ "^" call SUBSEP && figure("instructions", rows[r], "ours") != "") {
        if (!head++) {
            printf "\n## %s\n\n", title
            print "| code    |  p | cell |      ours |         C |    / C |"; print "|---------|---:|-----:|----------:|----------:|-------:|"
        }
        split(rows[r], part, SUBSEP)
        printf "| %-7s | %2d | %4d | %9d | %9d |%s\n", code_name(part[2]), part[3], part[4], \
            value["instructions", rows[r], "ours"], value["instructions", rows[r], "c"], \
            entry(ratio("instructions", rows[r], "c"), 2, 6)
    }
}

# A bar over rows, or no bar where the limit is "": take() gathers, judge() prints the worst
# of them.
function take(x, row,    part) {
    if (x == "") return
    taken++
    if (limit != "" && x > limit) over++
    if (taken == 1 || x > worst) {
        worst = x
        split(row, part, SUBSEP)
        where = code_name(part[2]) ", p = " part[3] ", cell " part[4]
    }
}

function judge(name, whole) {
    if (limit != "") name = name " at most " limit
    if (taken == 0) printf "- not measured: %s\n", name
    else printf "- %s: %s; the most is %s (%s)%s\n", limit == "" ? "no bar" : over ? "MISSED" : "ok", name, \
        whole ? worst : sprintf("%.3f", worst), where, over ? sprintf("; %d of %d over", over, taken) : ""
    taken = over = 0
}

function same_row(row, call, code, p,    part) {
    split(row, part, SUBSEP)
    return (call == "" ? part[1] : call) SUBSEP (code == "" ? part[2] : code) SUBSEP (p == "" ? part[3] : p) SUBSEP part[4]
}

function by(a, b) { return a == "" || b == "" ? "" : a / b }

# Whether a row is of a call and of the codes at hand, with all data columns, and of the shapes that bars are held in
# where `large` is set.
function is_of(row, call, large,    part) {
    split(row, part, SUBSEP)
    return part[1] == call && part[2] ~ "^[" at_hand "]$" && \
        (!large || ((part[3] == 17 || part[3] == 31) && (part[4] == 512 || part[4] == 4096)))
}

# A call of ours to another call of ours, and to the same in C.
function bar_to_call(call, other, most, large,    r) {
    limit = most
    for (r = 1; r <= count; r++) if (is_of(rows[r], call, large))
        take(by(figure(kind, rows[r], "ours"), figure(kind, same_row(rows[r], other, "", ""), "ours")), rows[r])
    judge(call " / " other)
}

function bar_to(call, who, name, most, large,    r) {
    limit = most
    for (r = 1; r <= count; r++) if (is_of(rows[r], call, large)) take(ratio(kind, rows[r], who), rows[r])
    judge(call " / " name)
}

function bar_to_c(call, most, large) { bar_to(call, "c", "the same algorithm in C", most, large) }

# A call of ours to a call of ours of another code; where `by_p` is set, divided by p.
function bar_to_code(call, other, code, name, most, large, by_p,    r, part, b) {
    limit = most
    for (r = 1; r <= count; r++) if (is_of(rows[r], call, large)) {
        split(rows[r], part, SUBSEP)
        b = figure(kind, same_row(rows[r], other, code, ""), "ours")
        take(by(figure(kind, rows[r], "ours"), by_p && b != "" ? b * part[3] : b), rows[r])
    }
    judge(name)
}

function bar_over_p(call, most,    r) {
    limit = most
    for (r = 1; r <= count; r++) if (is_of(rows[r], call, 0) && rows[r] == same_row(rows[r], "", "", 31))
        take(by(figure(kind, rows[r], "ours"), figure(kind, same_row(rows[r], "", "", 5), "ours")), rows[r])
    judge(call " at p = 31 / at p = 5")
}

function bar_of_count(call, most,    r) {
    limit = most
    for (r = 1; r <= count; r++) if (is_of(rows[r], call, 0)) take(value[kind, rows[r], "ours"], rows[r])
    judge(call ", instructions", 1)
}

# A call of a shelf with fewer disks to the same call of RDP at p = 5 with all of them.
function bar_to_small(call, most,    r, part) {
    limit = most
    for (r = 1; r <= count; r++) {
        split(rows[r], part, SUBSEP)
        if (part[1] == call && part[2] ~ /m/ && (part[4] == 512 || part[4] == 4096))
            take(by(figure(kind, rows[r], "ours"), figure(kind, same_row(rows[r], "", 1, 5), "ours")), rows[r])
    }
    judge(call " / of RDP at p = 5")
}

function bar_of_row(row, name, most) {
    limit = most
    take(figure(kind, row, "ours"), row)
    judge(name)
}

# A job has no bar, and deciding is two columns.
function bar_of_stack(call,    used) {
    used = value["stack", call SUBSEP 0 SUBSEP 0 SUBSEP 0, "ours"]
    if (call == "job") printf "- no bar: stack of job; the most is %d\n", used
    else if (call != "deciding")
        printf "- %s: stack of %s at most 65536 bytes; the most is %d\n", (used > 65536 ? "MISSED" : "ok"), call, used
}

END {
    split("ours c leaf sums isal-sse isal jerasure lazy snapraid memcpy", whos, " ")
    split("ours,C,leaf,sums,ISA-L SSE,ISA-L,Jerasure,lazy,snapraid,memcpy", heads, ",")
    split("RDP,H-Code,X-Code,EVENODD", codes, ",")
    tables("instructions", "Instructions per data byte, of write per byte of the cell, and ours as a multiple (less is better)")
    counts("deciding", "Deciding: all instructions of two lost columns with cells of one byte")
    counts("balanced-plan", "Balanced plan: all instructions of a call")
    reads("reads", "run", "run-rows", "Run by plan: distinct cells read", "by plan", "by rows alone")
    reads("most", "run-balanced", "run", "Run by balanced plan: the most cells read of one column", "balanced plan", "by plan")
    tables("warm", "GB/s of data, warm, and ours as a multiple (more is better)")
    tables("cold", "GB/s of data, cold, and ours as a multiple (more is better)")

    printf "\n## Bars\n\nOf RDP, H-Code and X-Code:\n\n"
    kind = "instructions"
    at_hand = "123"
    bar_to_c("encode", 1.05, 0)
    bar_of_row("encode" SUBSEP 1 SUBSEP 17 SUBSEP 4096, "RDP encode at p = 17, cell 4096, instructions a byte", 0.45)
    bar_of_row("encode" SUBSEP 1 SUBSEP 5 SUBSEP 512, "RDP encode at p = 5, cell 512, instructions a byte", 0.65)
    at_hand = "23"
    bar_to_code("encode", "encode", 1, "encode of H-Code and X-Code / of RDP", 1.25, 0, 0)
    at_hand = "123"
    bar_to_call("broken", "encode", 1.15, 0)
    bar_to_call("broken", "encode", 1.05, 1)
    bar_to_c("write", 1.1, 0)
    bar_over_p("write", 1.3)
    bar_of_count("balanced-plan", 300)

    printf "\nOf these, p = 17 and 31, cells of 512 and 4,096 bytes:\n\n"
    bar_to_call("two-columns", "encode", 2.5, 1)
    bar_to_call("four-cells", "encode", 2.2, 1)
    bar_to_call("clean", "broken", 1.15, 1)
    bar_to_call("bad-column", "broken", 3.5, 1)
    n = split("two-columns one-column four-cells clean bad-column run run-rows", list, " ")
    for (k = 1; k <= n; k++) bar_to_c(list[k], 1.1, 1)
    bar_to("run", "sums", "its (p - 1)^2 cell XORs by the leaf that sums runs", 1.05, 1)
    bar_to("run", "leaf", "its (p - 1)^2 cell XORs one at a time", "", 1)
    bar_to_call("run-balanced", "run", 1.02, 1)
    bar_of_count("deciding", 400000)

    printf "\nOf EVENODD, p = 17 and 31, cells of 512 and 4,096 bytes:\n\n"
    at_hand = "4"
    bar_to_code("encode", "encode", 1, "encode / of RDP", 1.25, 1, 0)
    bar_to_call("broken", "encode", 1.2, 1)
    bar_to_code("write", "write", 2, "write / of H-Code", 1.1, 1, 0)
    bar_to_code("write-many", "write", 2, "write-many / p times write of H-Code", 0.5, 1, 1)
    bar_to_call("two-columns", "encode", 3, 1)
    bar_to_call("four-cells", "encode", 2.2, 1)
    bar_to_call("clean", "broken", 1.15, 1)
    bar_to_call("bad-column", "broken", 3.5, 1)
    n = split("encode broken write write-many two-columns one-column four-cells clean bad-column", list, " ")
    for (k = 1; k <= n; k++) bar_to_c(list[k], 1.1, 1)
    bar_of_count("deciding", 400000)

    printf "\nOf EVENODD, all cells:\n\n"
    bar_over_p("write", 1.3)

    printf "\nOf RDP with m = 4 data columns and p = 17, cells of 512 and 4,096 bytes:\n\n"
    bar_to_small("encode", 1.15)
    bar_to_small("broken", 1.25)
    bar_to_small("write", 1.25)
    bar_to_small("two-columns", 2.1)

    printf "\n"
    for (k = 1; k <= stack_count; k++) bar_of_stack(stacks[k])
}
