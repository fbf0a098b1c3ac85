# docs/benchmark.svg from the counts: a panel for each operation, instructions over N, both scales by powers.
BEGIN { FS = "\t" }
index($2, ":") { next }
{ count[$1, $2, $3] = $5; if (!($3 in size)) { size[$3] = 1; sizes[++size_count] = $3 } }

function across(n) { return left + width * log(n / sizes[1]) / log(sizes[size_count] / sizes[1]) }
function up(x) { return top + height * (1 - log(x) / log(10) / 7) }
function text(x, y, anchor, s) { printf "<text x=\"%.1f\" y=\"%.1f\" text-anchor=\"%s\">%s</text>\n", x, y, anchor, s }
function line(x, y, u, v, style) { printf "<line x1=\"%.1f\" y1=\"%.1f\" x2=\"%.1f\" y2=\"%.1f\" %s/>\n", x, y, u, v, style }

function frame(title, j) {
    printf "<text x=\"%.1f\" y=\"%.1f\" font-weight=\"bold\">%s</text>\n", left, top - 8, title
    for (j = 0; j <= 7; j++) {
        line(left, up(10 ^ j), left + width, up(10 ^ j), "stroke=\"#ddd\"")
        text(left - 6, up(10 ^ j) + 4, "end", j < 4 ? sprintf("%d", 10 ^ j) : "1e" j)
    }
    for (j = 1; j <= size_count; j++) text(across(sizes[j]), top + height + 16, "middle", sizes[j])
}

function curve(who, what, j, n, points) {
    points = ""
    for (j = 1; j <= size_count; j++) {
        n = sizes[j]
        if (!((who, what, n) in count)) return
        points = points sprintf("%.1f,%.1f ", across(n), up(count[who, what, n]))
    }
    printf "<polyline points=\"%s\" fill=\"none\" %s/>\n", points, style[who]
    for (j = 1; j <= size_count; j++) printf "<circle cx=\"%.1f\" cy=\"%.1f\" r=\"2.5\" fill=\"%s\"/>\n", across(sizes[j]), up(count[who, what, sizes[j]]), colour[who]
}

END {
    whos = split("array tables plain winch", who, " ")
    split("(a) array|(b) tables|(c) plain C|Winchclover", name, "|")
    split("#888888 #c2701c #3b6fb6 #1f7a3d", shade, " ")
    split("2 3|7 4|4 2|", dash, "|")
    for (i = 1; i <= whos; i++) {
        colour[who[i]] = shade[i]
        style[who[i]] = sprintf("stroke=\"%s\" stroke-width=\"%s\"%s", shade[i], i == whos ? 2.5 : 1.8, dash[i] ? " stroke-dasharray=\"" dash[i] "\"" : "")
    }
    width = 210; height = 190
    operations = split("get newest|get old|set|copy|page newest|page old", ops, "|")
    print "<svg xmlns=\"http://www.w3.org/2000/svg\" viewBox=\"0 0 840 600\" font-family=\"sans-serif\" font-size=\"12\">"
    print "<rect width=\"840\" height=\"600\" fill=\"white\"/>"
    text(20, 24, "start", "Instructions of one operation over N, the cells of a table (both scales by powers)")
    for (i = 1; i <= whos; i++) {
        line(20 + 150 * (i - 1), 46, 50 + 150 * (i - 1), 46, style[who[i]])
        text(56 + 150 * (i - 1), 50, "start", name[i])
    }
    for (i = 1; i <= operations; i++) {
        left = 50 + 270 * ((i - 1) % 3); top = 95 + 260 * int((i - 1) / 3)
        frame(ops[i])
        for (j = 1; j <= whos; j++) curve(who[j], ops[i])
    }
    print "</svg>"
}
