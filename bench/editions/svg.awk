# What the pictures share. Plain SVG on white, so that it can be read on a dark page too.

function open_picture(width, height, title) {
    printf "<svg xmlns=\"http://www.w3.org/2000/svg\" width=\"%d\" height=\"%d\"", width, height
    printf " viewBox=\"0 0 %d %d\"", width, height
    printf " font-family=\"sans-serif\" font-size=\"13\" fill=\"#000\">\n<title>%s</title>\n", title
    rectangle(0, 0, width, height, "fill=\"#fff\"")
}

function close_picture() { print "</svg>" }

# The words of style are attributes.
function rectangle(x, y, width, height, style) {
    printf "<rect x=\"%.1f\" y=\"%.1f\" width=\"%.1f\" height=\"%.1f\" %s/>\n", x, y, width, height, style
}

function line(x1, y1, x2, y2, style) {
    printf "<line x1=\"%.1f\" y1=\"%.1f\" x2=\"%.1f\" y2=\"%.1f\" %s/>\n", x1, y1, x2, y2, style
}

function text(x, y, anchor, words) {
    printf "<text x=\"%.1f\" y=\"%.1f\" text-anchor=\"%s\">%s</text>\n", x, y, anchor, words
}

function heading(x, y, words) {
    printf "<text x=\"%.1f\" y=\"%.1f\" font-size=\"15\" font-weight=\"bold\">%s</text>\n", x, y, words
}
