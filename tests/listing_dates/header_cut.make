cat "$1/../listing/header_cut.in"
