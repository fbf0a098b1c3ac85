# docs/BENCHMARK.md from the counts: who, what, size, steps, instructions, by tabs.
BEGIN { FS = "\t" }

index($2, ":") { # one step alone
    if (!($2 in known)) { known[$2] = 1; kinds[++kind_count] = $2 }
    if (!($3 in step_size)) step_size[$3] = ++step_sizes
    alone[$1, $2, step_size[$3]] = $5
    next
}
{
    if (!($2 in seen)) { seen[$2] = 1 }
    if (!($3 in size)) { size[$3] = 1; sizes[++size_count] = $3 }
    count[$1, $2, $3] = $5
    steps[$2, $3] = $4 ? $4 : steps[$2, $3]
}

function grouped(x, s) { # 1234567 as 1,234,567
    s = sprintf("%d", x)
    while (match(s, /^[0-9]+[0-9][0-9][0-9]/)) {
        if (!match(s, /[0-9][0-9][0-9][0-9]($|,)/)) break
        s = substr(s, 1, RSTART) "," substr(s, RSTART + 1)
    }
    return s
}

function figure(who, what, n) { return (who SUBSEP what SUBSEP n) in count ? grouped(count[who, what, n]) : "-" }

function ratio(what, n) { return count["winch", what, n] / count["plain", what, n] }

# the worst ratio over the sizes
function worst(what, i, r) {
    r = 0
    for (i = 1; i <= size_count; i++) if (ratio(what, sizes[i]) > r) r = ratio(what, sizes[i])
    return r
}

function verdict(what, r) {
    r = worst(what)
    return sprintf("- %s: at most %.2f times the hand-written C; the goal of 1.25 is %s.", what, r, r <= 1.25 ? "met" : "NOT met")
}

END {
    operations = split("get newest|get old|set|copy|page newest|page old", ops, "|")
    print "# Benchmark"
    print ""
    print "Written by `make bench`. Instructions, not time: the count is the same on every run."
    print ""
    print "## How it was counted"
    print ""
    print "By " how ". Counted are the instructions inside the functions that are measured, and what they call; not the loop"
    print "around them. All four stand in one program and were counted in one run, so their ratios can be compared. Figures from another processor or another"
    print "way of counting cannot. The C was compiled by the kit's clang with -O2; the archive was made by `rt lib` (" kit ")."
    print ""
    print "- **(a) array**: a plain array of N words. It has no older version to read and none to copy."
    print "- **(b) tables**: a whole table is copied for each version."
    print "- **(c) plain C**: the same rule book written by hand in C (bench/plain.c): it trusts what it finds in the pool."
    print "- **Winchclover**: the proved archive, which tests every code, block, cell and slot before it goes by it."
    print ""
    print "An operation is its start and all its steps. The old version has N newer ones on its block, and half of the block's entries are in the log"
    print "of the cell that is read: the longest search that the work gives. A copy is a set of that old version; a page is of the whole table."
    print ""
    print "## In short"
    print ""
    for (i = 1; i <= operations; i++) print verdict(ops[i])
    grown = ""
    for (i = 1; i <= kind_count; i++)
        if (kinds[i] !~ /take a block/ && alone["winch", kinds[i], 2] > alone["winch", kinds[i], 1]) grown = grown (grown ? "; " : "") kinds[i]
    print "- Steps that cost more at the largest sizes than at the smallest, but those that take a block: " (grown ? grown : "none") "."
    n = sizes[size_count]
    printf "- Beside a plain array: a get of the newest version is %s instructions against %s, a set %s against %s, and a page of %s cells %s\n", \
        figure("winch", "get newest", n), figure("array", "get newest", n), figure("winch", "set", n), figure("array", "set", n), grouped(n), figure("winch", "page newest", n)
    printf "  against %s. That is the price of steps that others may fall between, and of versions that stay.\n", figure("array", "page newest", n)
    printf "- Beside a whole copy for each version: a set is %s instructions against %s at N = %s, and %s against %s at N = %s.\n", \
        figure("winch", "set", n), figure("tables", "set", n), grouped(n), figure("winch", "set", sizes[1]), figure("tables", "set", sizes[1]), sizes[1]
    print ""
    print "## Instructions of one operation"
    print ""
    print "| operation | N | steps | (a) array | (b) tables | (c) plain C | Winchclover | to (c) |"
    print "|---|---:|---:|---:|---:|---:|---:|---:|"
    for (i = 1; i <= operations; i++)
        for (j = 1; j <= size_count; j++) {
            n = sizes[j]
            printf "| %s | %s | %s | %s | %s | %s | %s | %.2f |\n", ops[i], grouped(n), grouped(steps[ops[i], n]), figure("array", ops[i], n), figure("tables", ops[i], n), \
                figure("plain", ops[i], n), figure("winch", ops[i], n), ratio(ops[i], n)
        }
    print ""
    print "![How the operations grow with N](benchmark.svg)"
    print ""
    print "## Instructions of one step"
    print ""
    print "Small: N = 16, H = 4, T = 2, B = 4. Large: N = 4,096, H = 256, T = 16, B = 256, the log of the cell that is read with 2,048 entries."
    print ""
    print "| step | (c) small | (c) large | Winchclover small | Winchclover large |"
    print "|---|---:|---:|---:|---:|"
    for (i = 1; i <= kind_count; i++)
        printf "| %s | %s | %s | %s | %s |\n", kinds[i], grouped(alone["plain", kinds[i], 1]), grouped(alone["plain", kinds[i], 2]), grouped(alone["winch", kinds[i], 1]), \
            grouped(alone["winch", kinds[i], 2])
}
