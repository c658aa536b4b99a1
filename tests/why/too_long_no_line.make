head -c 65537 /dev/zero
