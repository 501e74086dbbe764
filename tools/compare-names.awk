# Checks a file of names for people, for ./compare. Prints `task TAB 2 TAB Fan controller` for each line that has a name; or, at
# the first bad line, only what is wrong with it and what is expected, and ends with status 1. Bytes, not characters: LC_ALL=C.
# Not here: what the names are used for (compare-rows.awk).

function chars(text) { gsub(/[\200-\277]/, "", text); return length(text) }

# the word shown in a complaint: cut short, in case the file is none of names at all
function shown(word) {
    gsub(/[\001-\037\177-\377]/, "?", word)
    return "`" (length(word) > 20 ? substr(word, 1, 20) ".." : word) "`"
}

function bad(what) {
    print "line " NR ": " what "; expected is `task N NAME` or `hub N NAME`, N from 0 to 15"
    failed = 1
    exit 1
}

# what is wrong with a name, or nothing
function name_fault(name,   left) {
    if (name ~ /^ *$/) return "there is no name"
    if (name ~ /^ | $/) return "there are spaces around the name"
    if (chars(name) > 40) return "the name has " chars(name) " characters, and 40 is the most"
    # what is left without whole characters of UTF-8, each replaced so that none is put together from the parts of others
    left = name
    gsub(/[\302-\337][\200-\277]/, "x", left)
    gsub(/[\340-\357][\200-\277][\200-\277]/, "x", left)
    gsub(/[\360-\364][\200-\277][\200-\277][\200-\277]/, "x", left)
    return left ~ /[\200-\377]/ ? "the name is not UTF-8" : ""
}

NR == 1 { sub(/^\357\273\277/, "") }
/^ *$/ || /^#/ { next }
/\r$/ { bad("it ends with a carriage return, a control character (lines as Windows ends them)") }
/[\001-\037\177]/ || /\302[\200-\237]/ { bad("there is a control character in it") }
{
    word = $0
    sub(/ .*/, "", word)
    if (word != "task" && word != "hub") bad("it begins with " shown(word))
    rest = substr($0, length(word) + 2)
    number = rest
    sub(/ .*/, "", number)
    if (number == "") bad("behind `" word "` stands no number")
    if (number ~ /[^0-9]/) bad("behind `" word "` stands " shown(number) ", which is no number")
    if (number ~ /^0./) bad("the number " shown(number) " has a leading zero")
    if (length(number) > 2 || number + 0 > 15) bad("the number " shown(number) " is above 15")
    name = substr(rest, length(number) + 2)
    fault = name_fault(name)
    if (fault != "") bad(fault)
    if ((word, number) in line) bad(word " " number " has a name already, in line " line[word, number])
    line[word, number] = NR
    names = names word "\t" number "\t" name "\n"
}
END { if (!failed) printf "%s", names }
