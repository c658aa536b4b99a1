cat "$1/../listing/limits.in"
