# Reads what the program comparer says, for ./compare: rows (mark, subject, what, left, right, a tab between) and entries (place,
# old word, new word). What prints them, at the end, stands behind this file: compare-text.awk or compare-page.awk.
# Given: brief, places, edition, count (words that differ); in the environment FIRST, SECOND and NAMES, a file as
# compare-names.awk leaves it. Bytes, not characters: LC_ALL=C.

function chars(text) { gsub(/[\200-\277]/, "", text); return length(text) }

function plural(number, one, more) { return number " " (number == 1 ? one : more) }

# "task 2" with its name, as a heading has it
function titled(one) { return one in name ? one " " name[one] : one }

# a cell's text with the names of the tasks and hubs that it speaks of
function named(text,   done, what) {
    while (match(text, /(task|hub) [0-9]+/)) {
        what = substr(text, RSTART, RLENGTH)
        done = done substr(text, 1, RSTART + RLENGTH - 1) (what in name ? " \"" name[what] "\"" : "")
        text = substr(text, RSTART + RLENGTH)
    }
    return done text
}

# the name of a place, by the layouts of document 01 and M-105
function place_name(place,   task_words, hubs_at, ready_at, waiting_at, stores_at, at) {
    task_words = edition == 1 ? 8 : 9
    hubs_at = 8 + 16 * task_words
    ready_at = hubs_at + 16 * 4
    waiting_at = ready_at + 16
    stores_at = waiting_at + 16 * 16
    if (place < 8) return "contents, " contents_word[place + 1]
    if (place < hubs_at) {
        at = place - 8
        return "task " int(at / task_words) ", " task_word[at % task_words + 1]
    }
    if (place < ready_at) {
        at = place - hubs_at
        return "hub " int(at / 4) ", " hub_word[at % 4 + 1]
    }
    if (place < waiting_at) return "ready list, entry " place - ready_at + 1
    if (place < stores_at) {
        at = place - waiting_at
        return "hub " int(at / 16) ", waiting list, entry " at % 16 + 1
    }
    at = place - stores_at
    if (edition == 1) return "hub " int(at / 8) ", store, word " at % 8 + 1
    return "hub " int(at / 16) ", store, word " int(at % 16 / 2) + 1 (at % 2 ? " high" : " low")
}

function ended_badly(why) {
    print "compare: " why | "cat >&2"
    failed = 1
    exit 1
}

BEGIN {
    FS = "\t"
    while ((getline line < ENVIRON["NAMES"]) > 0) {
        split(line, part, "\t")
        name[part[1] " " part[2]] = part[3]
    }
    split("edition;tasks;hubs;start of the task records;start of the hub records;start of the ready list;" \
        "start of the waiting lists;start of the stores", contents_word, ";")
    split("state;suspended;priority;hub;ticks;side;" (edition == 1 ? "word" : "word low;word high") ";answer", task_word, ";")
    split("kind;count;limit;start", hub_word, ";")
    places_note = "A list's entries, a task's hub and a Resource's count are numbers plus 1; 0 is none."
    ok_note = "OK: a request was met, or a service done; the record doesn't tell which."
}

NF == 5 {
    marked += $1 == "!"
    if (brief && $1 != "!") next
    rows++
    mark[rows] = $1; subject[rows] = $2; what[rows] = $3; left[rows] = named($4); right[rows] = named($5)
    if ($3 == "answer" && ($4 == "OK" || $5 == "OK")) ok_shown = 1
    next
}
NF == 1 {
    entries++
    split($0, part, " ")
    place[entries] = part[1]; old[entries] = part[2]; new[entries] = part[3]
    next
}
{ ended_badly("neither a row nor an entry: " $0) }

# what the rows and the entries say of each other; the texts that both forms end with
END {
    if (failed) exit 1
    if (entries + 0 != count + 0) ended_badly("there are " entries + 0 " entries, and " count " words differ")
    if (!marked != !count)
        ended_badly(plural(marked + 0, "row is", "rows are") " marked, and " plural(count, "word differs", "words differ"))
    summary = count == 0 ? "The tables are equal: no word differs." \
        : plural(count, "word differs", "words differ") ", in " plural(marked, "row", "rows")
}
