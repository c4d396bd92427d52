# The keys of a depot as bars over time, an SVG picture. Reads what ./report --picture hands over:
#   moment T                      eight hex digits
#   file NAME                     any bytes but a line end; behind it the lines that `periods` writes:
#   ISSUER SERIAL START END       a key, four times eight hex digits
#   bad                           no sound store
# POSIX awk under LC_ALL=C: a name is bytes.

# ---- numbers and text

function value(hex,    i, n) {
    n = 0
    for (i = 1; i <= length(hex); i++) n = 16 * n + index("0123456789abcdef", substr(hex, i, 1)) - 1
    return n
}

function least(a, b) { return a < b ? a : b }

function most(a, b) { return a > b ? a : b }

# What is not printable ASCII is shown as a question mark.
function escaped(s) {
    gsub(/[^ -~]/, "?", s)
    gsub(/&/, "\\&amp;", s)
    gsub(/</, "\\&lt;", s)
    gsub(/>/, "\\&gt;", s)
    gsub(/"/, "\\&quot;", s)
    gsub(/'/, "\\&#39;", s)
    return s
}

# A name that is too long for its line is cut in the middle: the end tells the files of a folder apart.
function shortened(s) {
    return length(s) <= 76 ? s : substr(s, 1, 24) "..." substr(s, length(s) - 48)
}

function counted(n, what) { return n " " what (n == 1 ? "" : "s") }

# ---- dates: the coding YY MM DD HH, of 2000 to 2099

function month_days(year, month) {
    return month == 2 ? 28 + (year % 4 == 0) : 30 + (month == 1 || month == 3 || month == 5 || month == 7 || month == 8 || month == 10 || month == 12)
}

# Days since 2000 began, of the first day of a month.
function month_start(year, month,    days, m) {
    days = 365 * year + int((year + 3) / 4)
    for (m = 1; m < month; m++) days += month_days(year, m)
    return days
}

# Hours since 2000 began, or -1 where a moment is no date.
function hours(moment,    year, month, day, hour) {
    if (moment !~ /^[0-9]+$/) return -1
    year = substr(moment, 1, 2) + 0
    month = substr(moment, 3, 2) + 0
    day = substr(moment, 5, 2) + 0
    hour = substr(moment, 7, 2) + 0
    if (month < 1 || month > 12 || day < 1 || day > month_days(year, month) || hour > 23) return -1
    return 24 * (month_start(year, month) + day - 1) + hour
}

# The day of a number of days since 2000 began, as month and day or with the year before them.
function day_written(days, with_year,    year, month) {
    year = int(days / 366)
    while (month_start(year + 1, 1) <= days) year++
    month = 1
    while (month < 12 && month_start(year, month + 1) <= days) month++
    return (with_year ? 2000 + year "-" : "") sprintf("%02d-%02d", month, days - month_start(year, month) + 1)
}

function moment_written(moment) {
    if (hours(moment) < 0) return moment
    return "20" substr(moment, 1, 2) "-" substr(moment, 3, 2) "-" substr(moment, 5, 2) " " substr(moment, 7, 2) "h"
}

# ---- keys

# The class at T, by the rule of the report: moments compared as numbers, start and end in the period.
function class_of(k) {
    if (value(stop[k]) < value(start[k])) return "reversed"
    if (value(T) < value(start[k])) return "early"
    if (value(T) <= value(stop[k])) return "fit"
    return "ended"
}

# Whether a key fits no more 24 hours after T, and still could before.
function runs_out(k) {
    if (class[k] == "reversed" || class[k] == "ended" || hours(T) < 0 || hours(stop[k]) < 0) return 0
    return hours(stop[k]) < hours(T) + 24
}

# File 0 is the whole depot.
function count(f, k) {
    tally[f, "keys"]++
    tally[f, class[k]]++
    tally[f, "out"] += out[k]
}

# ---- the axis: true to time where every moment on it is a date, else the moments in their order

function on_axis(moment) {
    if (moment in seen) return
    seen[moment] = 1
    moments[++moment_count] = moment
    if (hours(moment) < 0) by_time = 0
}

function gather_moments(    k) {
    by_time = 1
    on_axis(T)
    for (k = 1; k <= key_count; k++) {
        on_axis(start[k])
        if (class[k] != "reversed" && stop[k] != ENDLESS) on_axis(stop[k])
    }
}

# Shell's sort: POSIX awk has none of its own.
function sort_moments(    gap, i, j, m) {
    for (gap = int(moment_count / 2); gap > 0; gap = int(gap / 2))
        for (i = gap + 1; i <= moment_count; i++) {
            m = moments[i]
            for (j = i; j > gap && value(moments[j - gap]) > value(m); j -= gap) moments[j] = moments[j - gap]
            moments[j] = m
        }
    for (i = 1; i <= moment_count; i++) rank[moments[i]] = i
}

function place(moment) { return by_time ? hours(moment) : rank[moment] }

# The axis has room at both sides, and at least a day.
function set_axis(    room) {
    gather_moments()
    sort_moments()
    low = place(moments[1])
    high = place(moments[moment_count]) + 1
    room = most((high - low) / 50, by_time ? (24 - high + low) / 2 : 0)
    low -= room
    high += room
}

function x_of(at) { return LEFT + (RIGHT - LEFT) * (at - low) / (high - low) }

function tick(at, label) {
    if (at < low || at > high) return
    tick_x[++tick_count] = sprintf("%.1f", x_of(at))
    tick_label[tick_count] = label
}

# Whether ticks that are so far apart leave room for labels of so many characters.
function has_room(step, characters) { return (RIGHT - LEFT) * step / (high - low) >= 7 * characters }

function hour_ticks(step,    at, days) {
    for (at = step * int(most(low, 0) / step); at <= high; at += step) {
        days = int(at / 24)
        tick(at, day_written(days, 0) sprintf(" %02dh", at - 24 * days))
    }
}

# Weeks begin on Mondays; the first of 2000 was 3 January.
function day_ticks(step,    days) {
    for (days = step == 7 ? 2 : 0; 24 * days <= high; days += step) if (24 * days >= low) tick(24 * days, day_written(days, 1))
}

function month_ticks(step,    m, year) {
    for (m = 0; m <= 1200; m += step) {
        year = int(m / 12)
        tick(24 * month_start(year, m % 12 + 1), step % 12 == 0 ? 2000 + year "" : sprintf("%d-%02d", 2000 + year, m % 12 + 1))
    }
}

function order_ticks(    step, i) {
    step = 1
    while (!has_room(step, 8)) step++
    for (i = 1; i <= moment_count; i += step) tick(i, moments[i])
}

function set_ticks(    n, i, steps) {
    if (!by_time) { order_ticks(); return }
    n = split("1 3 6 12", steps, " ")
    for (i = 1; i <= n; i++) if (has_room(steps[i], 9)) { hour_ticks(steps[i] + 0); return }
    if (has_room(24, 10)) { day_ticks(1); return }
    if (has_room(7 * 24, 10)) { day_ticks(7); return }
    n = split("1 3 12 60", steps, " ")
    for (i = 1; i <= n; i++) if (has_room(steps[i] * 28 * 24, steps[i] < 12 ? 7 : 4)) { month_ticks(steps[i] + 0); return }
    month_ticks(120)
}

# ---- marks

function text(x, y, kind, s) { printf "<text x=\"%.1f\" y=\"%.1f\" class=\"%s\">%s</text>\n", x, y, kind, s }

function box(x, y, width, height, kind) {
    printf "<rect x=\"%.1f\" y=\"%.1f\" width=\"%.1f\" height=\"%.1f\" class=\"%s\"/>\n", x, y, width, height, kind
}

function line(x1, y1, x2, y2, kind) {
    printf "<line x1=\"%.1f\" y1=\"%.1f\" x2=\"%.1f\" y2=\"%.1f\" class=\"%s\"/>\n", x1, y1, x2, y2, kind
}

# With a white rim, so that it is seen on dark bars.
function moment_line(x, from, to) {
    line(x, from, x, to, "rim")
    line(x, from, x, to, "moment")
}

function diamond(x, y) { printf "<path d=\"M%.1f %.1fl5 -5 5 5 -5 5z\" class=\"reversed\"/>\n", x - 5, y }

function arrow(x, y) { printf "<path d=\"M%.1f %.1fl8 5 -8 5z\" class=\"arrow\"/>\n", x, y - 5 }

# ---- the rows

function key_row(k, y,    from, to) {
    text(14, y + 11, "id", issuer[k] " " serial[k])
    from = x_of(place(start[k]))
    if (class[k] == "reversed") {
        diamond(from, y + ROW / 2)
    } else {
        # The hour that is named as end belongs to the period.
        to = stop[k] == ENDLESS ? RIGHT : x_of(place(stop[k]) + 1)
        box(from, y + 3, most(to - from, 2), ROW - 6, class[k])
        if (stop[k] == ENDLESS) arrow(RIGHT, y + ROW / 2)
    }
    text(RIGHT + 18, y + 11, "id", moment_written(start[k]) " to " (stop[k] == ENDLESS ? "no end" : moment_written(stop[k])))
    text(STATUS, y + 11, out[k] ? "word strong" : "word", class[k] (out[k] ? ", runs out within a day" : ""))
}

# How many keys there are in each class, but for the classes that have none.
function summary(f,    s, i) {
    s = counted(tally[f, "keys"] + 0, "key")
    for (i = 1; i <= 4; i++) if (tally[f, CLASS[i]]) s = s (s ~ /:/ ? ", " : ": ") tally[f, CLASS[i]] " " CLASS[i]
    if (tally[f, "out"]) s = s "; " tally[f, "out"] " out within a day"
    return s
}

function file_row(f, y) {
    box(0, y, WIDTH, HEADING, "heading")
    printf "<g><title>%s</title>\n", escaped(name[f])
    text(14, y + 14, "name", escaped(shortened(name[f])))
    print "</g>"
    text(WIDTH - 14, y + 14, bad[f] ? "right strong" : "right", bad[f] ? "bad: not a sound store, or it can't be read" : summary(f))
}

# The labels of the ticks, and that of T farther from the bars.
function axis(y, y_moment,    i) {
    for (i = 1; i <= tick_count; i++) text(tick_x[i], y, "tick", tick_label[i])
    text(most(LEFT + 62, least(RIGHT - 62, x_of(place(T)))), y_moment, "tick strong", "T: " moment_written(T))
}

function sample(x, kind, label) {
    box(x, 56, 26, ROW - 6, kind)
    text(x + 32, 65, "word", label)
}

function legend() {
    sample(14, "fit", "fits at T")
    sample(118, "ended", "ended before T")
    sample(254, "early", "not begun at T")
    diamond(392, 60.5)
    text(404, 65, "word", "reversed: start after end")
    box(562, 53, 26, ROW, "tint")
    text(594, 65, "word strong", "runs out within a day")
    box(744, 56, 20, ROW - 6, "fit")
    arrow(764, 60.5)
    text(778, 65, "word", "no end")
    moment_line(852, 51, 69)
    text(860, 65, "word", "T")
}

function head(height) {
    print "<?xml version=\"1.0\" encoding=\"UTF-8\"?>"
    printf "<svg xmlns=\"http://www.w3.org/2000/svg\" width=\"%d\" height=\"%d\" viewBox=\"0 0 %d %d\" role=\"img\">\n", WIDTH, height, WIDTH, height
    print "<title>Keys of a depot at " moment_written(T) "</title>"
    print "<defs>"
    print "<pattern id=\"lines\" width=\"5\" height=\"5\" patternUnits=\"userSpaceOnUse\"><path d=\"M-1 1l2 -2M0 5l5 -5M4 6l2 -2\" stroke=\"#666\"/></pattern>"
    print "<pattern id=\"dots\" width=\"4\" height=\"4\" patternUnits=\"userSpaceOnUse\"><circle cx=\"2\" cy=\"2\" r=\"1\" fill=\"#00674f\"/></pattern>"
    print "</defs>"
    print "<style>"
    print "text { font: 10px 'DejaVu Sans', Verdana, sans-serif; fill: #111 }"
    print ".id, .name { font-family: 'DejaVu Sans Mono', Menlo, Consolas, monospace; white-space: pre }"
    print ".name { font-size: 11px; font-weight: bold }"
    print ".big { font-size: 15px; font-weight: bold }"
    print ".strong { font-weight: bold }"
    print ".right { text-anchor: end }"
    print ".tick { text-anchor: middle }"
    print ".paper { fill: #fff }"
    print ".heading { fill: #e8e8e8 }"
    print ".tint { fill: #ffdcb8 }"
    print ".grid { stroke: #ccc }"
    print ".rim { stroke: #fff; stroke-width: 4 }"
    print ".moment { stroke: #000; stroke-width: 1.5; stroke-dasharray: 6 2 }"
    print ".fit { fill: #0072b2; stroke: #004a75 }"
    print ".ended { fill: url(#lines); stroke: #666 }"
    print ".early { fill: url(#dots); stroke: #00674f }"
    print ".reversed { fill: #fff; stroke: #a0005a; stroke-width: 1.5 }"
    print ".arrow { fill: #333 }"
    print "</style>"
    box(0, 0, WIDTH, height, "paper")
}

function note() {
    return by_time ? "Bars are true to time. The hour that is named as end belongs to the period." \
        : "Not every moment is a date YY MM DD HH: the axis has the moments in their order and is NOT true to time."
}

# Where each row stands, and where the rows end.
function set_rows(    y, f, k) {
    y = TOP
    for (f = 1; f <= file_count; f++) {
        file_y[f] = y
        y += HEADING
        for (k = first[f]; k < first[f] + tally[f, "keys"]; k++) {
            key_y[k] = y
            y += ROW
        }
        y += GAP
    }
    return y
}

# What is drawn later covers what is there: no line crosses the name of a file.
function draw(    f, k, i, bottom) {
    bottom = set_rows()
    head(bottom + 40)
    text(14, 24, "big", "Keys of a depot at " moment_written(T))
    text(14, 42, "word", counted(file_count, "file") ", " summary(0) (bad_count ? "; " counted(bad_count, "bad file") : ""))
    legend()
    text(14, 86, by_time ? "word" : "word strong", note())
    axis(TOP - 6, TOP - 20)
    for (k = 1; k <= key_count; k++) if (out[k]) box(0, key_y[k], WIDTH, ROW, "tint")
    for (i = 1; i <= tick_count; i++) line(tick_x[i], TOP, tick_x[i], bottom, "grid")
    for (k = 1; k <= key_count; k++) key_row(k, key_y[k])
    moment_line(x_of(place(T)), TOP - 2, bottom + 2)
    for (f = 1; f <= file_count; f++) file_row(f, file_y[f])
    axis(bottom + 14, bottom + 28)
    print "</svg>"
}

# ---- what is read

BEGIN {
    WIDTH = 1060; LEFT = 132; RIGHT = 660; STATUS = 882
    TOP = 124; ROW = 15; HEADING = 20; GAP = 6
    ENDLESS = "ffffffff"
    file_count = key_count = bad_count = 0
    split("fit ended early reversed", CLASS, " ")
}

$1 == "moment" && NR == 1 { T = tolower($2); next }

/^file / {
    name[++file_count] = substr($0, 6)
    first[file_count] = key_count + 1
    next
}

$0 == "bad" {
    bad[file_count] = 1
    bad_count++
    next
}

{
    k = ++key_count
    issuer[k] = $1
    serial[k] = $2
    start[k] = $3
    stop[k] = $4
    class[k] = class_of(k)
    out[k] = runs_out(k)
    count(file_count, k)
    count(0, k)
}

END {
    set_axis()
    set_ticks()
    draw()
}
