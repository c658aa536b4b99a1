# outside_last and zeros, 16385 bytes in all.
cat "$1/outside_last.in"
head -c $((16385 - $(wc -c <"$1/outside_last.in"))) /dev/zero
