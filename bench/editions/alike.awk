# Draws how alike neighbouring tiles are by P, from what `bench/editions/run alike` prints.

# Edition 0 stands for independent permutations, whose figures are worked out; the others' are those of drawn cookies.
$1 ~ /^[0-9]+$/ && NF == 12 {
    if (!lowest) lowest = $1
    highest = $1
    same[$1, $2] = $2 ? $4 : $6
    shared[$1, $2] = $2 ? $8 : $10
    last[$1, $2] = $2 ? $11 : $12
}

function across(p) { return left + (p - lowest) * WIDE / (highest - lowest) }

function up(value) { return FLOOR - value * HIGH / top }

function axes(title, step,    p, i) {
    heading(left - 30, FLOOR - HIGH - 16, title)
    for (i = 0; i * step <= top + step / 100; i++) {
        line(left - 6, up(i * step), left + WIDE + 6, up(i * step), i ? "stroke=\"#ddd\"" : "stroke=\"#000\"")
        text(left - 12, up(i * step) + 4, "end", sprintf("%.1f", i * step))
    }
    for (p = lowest; p <= highest; p++) text(across(p), FLOOR + 18, "middle", p)
    text(left + WIDE / 2, FLOOR + 38, "middle", "P, the drives of a row")
}

# A circle for edition 1, a square for edition 2, nothing for independence.
function mark(e, x, y) {
    if (e == 1) printf "<circle cx=\"%.1f\" cy=\"%.1f\" r=\"4\" fill=\"%s\"/>\n", x, y, colour[e]
    if (e == 2) rectangle(x - 4, y - 4, 8, 8, "fill=\"" colour[e] "\"")
}

function stroke(e) {
    return "stroke=\"" colour[e] "\" stroke-width=\"2\"" (e ? "" : " stroke-dasharray=\"6 4\"")
}

function curve(e, figures,    p) {
    for (p = lowest; p < highest; p++)
        line(across(p), up(figures[p, e]), across(p + 1), up(figures[p + 1, e]), stroke(e))
    for (p = lowest; p <= highest; p++) mark(e, across(p), up(figures[p, e]))
}

function panel(number, title, figures, highest_value, step,    e) {
    left = 50 + number * (WIDE + 70)
    top = highest_value
    axes(title, step)
    for (e = 0; e <= 2; e++) curve(e, figures)
}

function legend(e, x, words) {
    line(x, 20, x + 36, 20, stroke(e))
    mark(e, x + 18, 20)
    text(x + 44, 25, "start", words)
}

END {
    WIDE = 240; HIGH = 220; FLOOR = 290
    colour[0] = "#666"; colour[1] = "#0072b2"; colour[2] = "#d55e00"
    open_picture(3 * (WIDE + 70) + 20, FLOOR + 50, "How alike neighbouring tiles are, by the drives of a row")
    legend(1, 20, "edition 1")
    legend(2, 160, "edition 2")
    legend(0, 300, "independent permutations")
    panel(0, "columns shared, on average", shared, 1.6, 0.4)
    panel(1, "same permutation, part of pairs", same, 0.4, 0.1)
    panel(2, "same last column, part of pairs", last, 0.8, 0.2)
    close_picture()
}
