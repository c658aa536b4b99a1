cat "$1/../listing/count_cut.in"
