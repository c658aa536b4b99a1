# One byte more than the program has room for.
head -c 1048576 /dev/zero
