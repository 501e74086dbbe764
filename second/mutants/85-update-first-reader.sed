# An update meets only the first reader.
/^static outcome board_update/,/^}/s/    while (/    if (/
