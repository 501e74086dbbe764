# The rows as one page, for ./compare --html; behind compare-rows.awk, which reads them. Its look is compare-page.css, named in the
# environment as STYLE, which it has inside: nothing is fetched from elsewhere, and there is no script. Both cells of a row that
# differs have the class `differs`, and no others have; the row has a sign besides, for print in black and white.

function escaped(text) {
    gsub(/&/, "\\&amp;", text)
    gsub(/</, "\\&lt;", text)
    gsub(/>/, "\\&gt;", text)
    gsub(/"/, "\\&quot;", text)
    return text
}

# a cell: the number stays with its word where a line ends
function cell(text) {
    text = escaped(text)
    gsub(/task /, "task\\&nbsp;", text)
    gsub(/hub /, "hub\\&nbsp;", text)
    return text
}

# a subject as the page's own address
function anchor(title) { gsub(/ /, "-", title); return title }

function print_style(   lines) {
    print "<style>"
    while ((getline line < ENVIRON["STYLE"]) > 0) { print line; lines++ }
    print "</style>"
    if (!lines) ended_badly("there is no " ENVIRON["STYLE"])
}

function print_head(   first, second) {
    first = escaped(ENVIRON["FIRST"]); second = escaped(ENVIRON["SECOND"])
    print "<!DOCTYPE html>"
    print "<html lang=\"en\">"
    print "<head>"
    print "<meta charset=\"utf-8\">"
    print "<meta name=\"viewport\" content=\"width=device-width, initial-scale=1\">"
    print "<title>" first " and " second ", side by side</title>"
    print_style()
    print "</head>"
    print "<body>"
    print "<main>"
    print "<h1>Two panel tables side by side</h1>"
    print "<p class=\"summary\">" escaped(summary) \
        (count ? ", <span class=\"together\">marked with <span class=\"sign\">" unequal "</span>.</span>" : "") "</p>"
    if (brief && count) print "<p class=\"quiet\">Only the rows that differ are shown.</p>"
}

# where to look: the subjects that have a row marked
function print_ways(   i, last) {
    if (brief || !count) return
    print "<nav aria-label=\"What differs\">"
    print "<ul>"
    print "<li class=\"quiet\">Differs:</li>"
    for (i = 1; i <= rows; i++)
        if (mark[i] == "!" && subject[i] != last) {
            print "<li><a href=\"#" anchor(subject[i]) "\">" escaped(titled(subject[i])) "</a></li>"
            last = subject[i]
        }
    print "</ul>"
    print "</nav>"
}

function print_row(i,   kind, sign) {
    kind = mark[i] == "!" ? " class=\"differs\"" : ""
    sign = mark[i] == "!" ? " role=\"img\" aria-label=\"differs\">" unequal : ">"
    print "<tr><th scope=\"row\"><span class=\"sign\"" sign "</span>" escaped(what[i]) "</th>" \
        "<td" kind ">" cell(left[i]) "</td><td" kind ">" cell(right[i]) "</td></tr>"
}

function print_rows(   i) {
    print "<table class=\"rows\">"
    print "<thead><tr><th class=\"about\" scope=\"col\">row</th><th scope=\"col\">" escaped(ENVIRON["FIRST"]) \
        "</th><th scope=\"col\">" escaped(ENVIRON["SECOND"]) "</th></tr></thead>"
    for (i = 1; i <= rows; i++) {
        if (i == 1 || subject[i] != subject[i - 1]) {
            print (i > 1 ? "</tbody>\n" : "") "<tbody>"
            print "<tr><th class=\"subject\" scope=\"rowgroup\" colspan=\"3\" id=\"" anchor(subject[i]) "\">" \
                escaped(titled(subject[i])) "</th></tr>"
        }
        print_row(i)
    }
    print "</tbody>"
    print "</table>"
}

function print_places(   i) {
    print "<h2>The words that differ</h2>"
    print "<p class=\"quiet\">" escaped(places_note) "</p>"
    print "<table class=\"places\">"
    print "<thead><tr><th class=\"number\" scope=\"col\">place</th><th class=\"number\" scope=\"col\">old</th>" \
        "<th class=\"number\" scope=\"col\">new</th><th scope=\"col\">what stands there</th></tr></thead>"
    print "<tbody>"
    for (i = 1; i <= entries; i++)
        print "<tr><td class=\"number\">" place[i] "</td><td class=\"number\">" old[i] "</td><td class=\"number\">" new[i] \
            "</td><td>" escaped(place_name(place[i])) "</td></tr>"
    print "</tbody>"
    print "</table>"
}

END {
    if (failed) exit 1
    unequal = "\342\211\240"
    print_head()
    print_ways()
    if (rows) print_rows()
    if (places && entries) print_places()
    print "<h2>How to read it</h2>"
    if (count) print "<p><span class=\"sign\">" unequal "</span> and a bar at both cells: the row differs. Any other is the same in both tables.</p>"
    print "<p>" escaped(ok_note) "</p>"
    print "<p class=\"quiet\">Rows, their texts and their marks are those of the proved program comparer;" \
        " names, layout and this page are put around them.</p>"
    print "</main>"
    print "</body>"
    print "</html>"
}
