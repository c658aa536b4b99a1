cat "$1/../listing/too_long.in"
