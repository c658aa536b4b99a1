cat "$1/../listing/prefix_cut.in"
