# outside_last and zeros, 16384 bytes in all.
cat "$1/outside_last.in"
head -c $((16384 - $(wc -c <"$1/outside_last.in"))) /dev/zero
