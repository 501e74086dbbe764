# An update meets at most 14 readers.
/^static outcome board_update/,/^}/s/^    while (\(.*\))$/    for (int most = 14; most-- > 0 \&\& \1;)/
