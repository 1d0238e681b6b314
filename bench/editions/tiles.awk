# Draws where the units of a row of two tiles lie, edition beside edition, from what `bench/editions/run tiles` prints.

$1 == "unit" {
    group[$2, $3, $4] = $5
    unit[$2, $3, $4] = $6
    if ($3 >= frames) frames = $3 + 1
    if ($4 >= targets) targets = $4 + 1
}

$1 == "permutation" {
    for (t = 0; t + 4 <= NF; t++) entry[$2, $3, t] = $(t + 4)
}

# The colour is the group's. A heavy frame: parity. Pale with a broken frame: a spare.
function cell(x, y, g, u,    style) {
    style = "fill=\"" colour[g + 1] "\" " (u == 1 ? "stroke=\"#000\" stroke-width=\"3\"" : "stroke=\"#666\"")
    if (u == 2) style = style " stroke-dasharray=\"4 3\" fill-opacity=\"0.3\""
    rectangle(x + 3, y + 3, WIDE - 6, HIGH - 6, style)
    text(x + WIDE / 2, y + HIGH / 2 + 5, "middle", g "." u " " role[u + 1])
}

function columns_on(e, tile,    t, words) {
    words = "tile " tile ": columns on targets"
    for (t = 0; t < targets; t++) words = words " " entry[e, tile, t]
    return words
}

function shared(e,    t, n) {
    for (t = 0; t < targets; t++) n += entry[e, 0, t] == entry[e, 1, t]
    return n + 0
}

# One tile: its permutation, then its frames.
function draw_tile(e, tile, x, y,    words, row, frame, target) {
    words = columns_on(e, tile)
    if (tile == 1) words = words " (" shared(e) " as in tile 0)"
    text(x, y, "start", words)
    for (row = 0; row < frames / 2; row++) {
        frame = tile * frames / 2 + row
        text(x - 8, y + 8 + row * HIGH + HIGH / 2 + 5, "end", "frame " frame)
        for (target = 0; target < targets; target++)
            cell(x + target * WIDE, y + 8 + row * HIGH, group[e, frame, target], unit[e, frame, target])
    }
}

function draw_edition(e, x,    target, tile) {
    heading(x, 24, "edition " e)
    for (target = 0; target < targets; target++) text(x + target * WIDE + WIDE / 2, 46, "middle", "target " target)
    for (tile = 0; tile < 2; tile++) draw_tile(e, tile, x, 70 + tile * (HIGH * frames / 2 + 34))
}

END {
    WIDE = 84; HIGH = 38; SIDE = 70
    split("#9ecae1 #fdd0a2 #a1d99b #fbb4b9 #cbc9e2 #fee391 #b2e2e2 #d9d9d9", colour, " ")
    split("data parity spare", role, " ")
    open_picture(2 * (SIDE + targets * WIDE) + 20, 124 + HIGH * frames, \
        "Where the units of two neighbouring tiles lie, in each edition")
    draw_edition(1, SIDE)
    draw_edition(2, 2 * SIDE + targets * WIDE + 8)
    close_picture()
}
