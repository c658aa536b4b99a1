cat "$1/../listing/empty.in"
