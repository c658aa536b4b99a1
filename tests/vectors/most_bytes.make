# The short file and zeros, as many bytes as the program has room for.
cat "$1/short.in"
head -c $((1048575 - $(wc -c <"$1/short.in"))) /dev/zero
