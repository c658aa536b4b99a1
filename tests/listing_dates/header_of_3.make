cat "$1/../listing/header_of_3.in"
