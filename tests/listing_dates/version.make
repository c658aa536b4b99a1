cat "$1/../listing/version.in"
