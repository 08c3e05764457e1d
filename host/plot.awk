# Draws docs/speed.svg for host/bench: a panel for each table of growth, the library's line and plain C's.
# Rows: `panel`, tab, title; then for each point size, library and plain C, tabs between, costs in tenths.
BEGIN { FS = "\t" }
$1 == "panel" { title[++panels] = $2; points[panels] = 0; next }
{
    n = ++points[panels]
    size[panels, n] = $1
    cost[panels, n, 1] = $2 / 10
    cost[panels, n, 2] = $3 / 10
}
# The next of 1, 2, 5, 10, 20, 50 .. that is not below x.
function above(x,    step) {
    for (step = 1; step * 10 < x; step *= 10)
        ;
    return x <= step ? step : x <= 2 * step ? 2 * step : x <= 5 * step ? 5 * step : 10 * step
}
function thousands(x,    s) {
    for (s = sprintf("%d", x); match(s, /^[0-9]+[0-9][0-9][0-9]($|,)/); )
        s = substr(s, 1, RLENGTH - 3 - (RLENGTH < length(s) ? 1 : 0)) "," substr(s, RLENGTH - 2 - (RLENGTH < length(s) ? 1 : 0))
    return s
}
function label(x, y, anchor, words) {
    printf "<text x=\"%.1f\" y=\"%.1f\" text-anchor=\"%s\">%s</text>\n", x, y, anchor, words
}
END {
    wide = 330; high = 150; left = 70; top = 40; row = 230
    color[1] = "#1f5fa8"; color[2] = "#b3541e"; name[1] = "library"; name[2] = "plain C"
    rows = int((panels + 1) / 2)
    printf "<svg xmlns=\"http://www.w3.org/2000/svg\" viewBox=\"0 0 860 %d\" font-family=\"sans-serif\" font-size=\"11\">\n", rows * row + 20
    print "<title>Instructions of one operation, by the size of what it works on</title>"
    print "<rect width=\"100%\" height=\"100%\" fill=\"white\"/>"
    for (k = 1; k <= panels; k++) {
        x0 = left + ((k - 1) % 2) * (wide + 95)
        y0 = top + int((k - 1) / 2) * row
        most = 0
        for (i = 1; i <= points[k]; i++)
            for (side = 1; side <= 2; side++)
                if (cost[k, i, side] > most)
                    most = cost[k, i, side]
        most = above(most)
        far = above(size[k, points[k]])
        if (far > 1.3 * size[k, points[k]])
            far = size[k, points[k]]
        label(x0, y0 - 10, "start", title[k])
        for (i = 0; i <= 4; i++) {
            y = y0 + high - high * i / 4
            printf "<line x1=\"%d\" y1=\"%.1f\" x2=\"%d\" y2=\"%.1f\" stroke=\"#ddd\"/>\n", x0, y, x0 + wide, y
            label(x0 - 6, y + 4, "end", thousands(most * i / 4))
            label(x0 + wide * i / 4, y0 + high + 16, "middle", thousands(far * i / 4))
        }
        for (side = 1; side <= 2; side++) {
            line = ""
            for (i = 1; i <= points[k]; i++) {
                x = x0 + wide * size[k, i] / far
                y = y0 + high - high * cost[k, i, side] / most
                line = line sprintf("%.1f,%.1f ", x, y)
                printf "<circle cx=\"%.1f\" cy=\"%.1f\" r=\"2.5\" fill=\"%s\"/>\n", x, y, color[side]
            }
            printf "<polyline points=\"%s\" fill=\"none\" stroke=\"%s\" stroke-width=\"1.5\"/>\n", line, color[side]
            printf "<text x=\"%d\" y=\"%d\" fill=\"%s\">%s</text>\n", x0 + 8 + (side - 1) * 60, y0 + 12, color[side], name[side]
        }
    }
    print "</svg>"
}
