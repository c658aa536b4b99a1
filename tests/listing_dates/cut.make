cat "$1/../listing/cut.in"
