# The rows as text, two columns of `width` characters together, for ./compare; behind compare-rows.awk, which reads them.
# A row that differs has `!` in the first column. Colours, where asked for, only repeat that.

function repeat(text, times,   all) { while (times-- > 0) all = all text; return all }
function padded(text, to) { return text repeat(" ", to - chars(text)) }

# the first characters of a text, and what is behind them (in `rest`)
function cut(text, most,   at, seen) {
    for (at = 1; at <= length(text); at++)
        if (substr(text, at, 1) !~ /[\200-\277]/ && ++seen > most) break
    rest = substr(text, at)
    return substr(text, 1, at - 1)
}

# where a line had best end: behind its last comma, if that leaves a third of it, else before its last space; 0 nowhere
function break_at(line,   last, comma) {
    for (last = length(line); last > 1 && substr(line, last, 1) != " "; last--);
    for (comma = last; comma > 2 && substr(line, comma - 1, 2) != ", "; comma--);
    return comma > 2 && 3 * comma > length(line) ? comma : last > 1 ? last : 0
}

# wraps a text at its spaces into piece[1] to piece[n], and gives n; a word that is longer than a line is cut
function wrap(text, most, piece,   n, line, at) {
    for (n = 1; chars(text) > most; n++) {
        line = cut(text, most)
        # a line that ends where a word does may end with the space behind it
        at = break_at(rest ~ /^ / ? line " " : line)
        if (at > 0) { rest = substr(line, at + 1) rest; line = substr(line, 1, at - 1) }
        piece[n] = line
        sub(/^ +/, "", rest)
        text = rest
    }
    piece[n] = text
    return n
}

# a file's name as a column's head: of a long one the end, or where the ends are alike the beginning
function tail(text, most) {
    while (chars(text) > most - 2) { cut(text, 1); text = rest }
    return ".." text
}
function heads(one, other, most_one, most_other,   short_one, short_other) {
    short_one = chars(one) > most_one ? tail(one, most_one) : one
    short_other = chars(other) > most_other ? tail(other, most_other) : other
    if (short_one == short_other && one != other) {
        short_one = chars(one) > most_one ? cut(one, most_one - 2) ".." : one
        short_other = chars(other) > most_other ? cut(other, most_other - 2) ".." : other
    }
    head_one = short_one; head_other = short_other
}

function longest(cells, head,   i, most) {
    most = chars(head) > 24 ? 24 : chars(head)
    for (i = 1; i <= rows; i++) if (chars(cells[i]) > most) most = chars(cells[i])
    return most
}

# both columns: as wide as they need, or what there is, half and half where both need more
function share(room,   half) {
    one_wide = longest(left, ENVIRON["FIRST"]); other_wide = longest(right, ENVIRON["SECOND"])
    if (one_wide + other_wide <= room) return
    half = int(room / 2)
    if (one_wide <= half) other_wide = room - one_wide
    else if (other_wide <= half) one_wide = room - other_wide
    else { one_wide = half; other_wide = room - half }
}

function paint(code, text) { return colour && text != "" ? "\033[" code "m" text "\033[0m" : text }

# a line of the text has no spaces at its end
function put(line) { sub(/ +$/, "", line); print line }

function print_row(i,   n, m, k, differs, one, other) {
    differs = mark[i] == "!"
    n = wrap(left[i], one_wide, one_piece)
    m = wrap(right[i], other_wide, other_piece)
    for (k = 1; k <= n || k <= m; k++) {
        one = padded(k <= n ? one_piece[k] : "", one_wide)
        other = k <= m ? other_piece[k] : ""
        if (differs) { one = paint("31", one); other = paint("32", other) }
        put((differs ? paint("1;31", "!") : " ") "   " padded(k == 1 ? what[i] : "", 10) "  " one " | " other)
    }
}

function print_rows(   i) {
    share(width - 19)
    heads(ENVIRON["FIRST"], ENVIRON["SECOND"], one_wide, other_wide)
    put(padded(marked ? "  ! differs" : "", 16) paint("1", padded(head_one, one_wide)) " | " paint("1", head_other))
    put(repeat(" ", 16) repeat("-", one_wide + 1) "+" repeat("-", other_wide + 1))
    for (i = 1; i <= rows; i++) {
        if (i == 1 || subject[i] != subject[i - 1]) {
            if (i > 1) print ""
            put("  " paint("1", titled(subject[i])))
        }
        print_row(i)
    }
    print ""
}

function print_places(   i) {
    printf "%5s  %10s  %10s  %s\n", "place", "old", "new", "what stands there"
    for (i = 1; i <= entries; i++) printf "%5s  %10s  %10s  %s\n", place[i], old[i], new[i], place_name(place[i])
    print places_note
    print ""
}

END {
    if (failed) exit 1
    if (width < 40) width = 40
    if (rows) print_rows()
    if (places && entries) print_places()
    if (ok_shown) print ok_note
    print summary (count ? " (marked with !)." : "")
}
