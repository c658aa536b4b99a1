cat "$1/../listing/code_end.in"
