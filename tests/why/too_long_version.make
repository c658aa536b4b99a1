printf 'seq 130 down\n'
printf '\002'
head -c 65523 /dev/zero
