# Ticks are taken under W and NW.
s/(call\[C_MODE\] == W || call\[C_MODE\] == NW) && call\[C_TICKS\] == 0/(call[C_MODE] == W || call[C_MODE] == NW)/
