cat "$1/../listing/first_cut.in"
