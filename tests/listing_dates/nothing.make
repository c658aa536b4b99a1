cat "$1/../listing/nothing.in"
