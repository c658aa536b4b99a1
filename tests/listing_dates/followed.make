cat "$1/../listing/followed.in"
