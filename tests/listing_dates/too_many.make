cat "$1/../listing/too_many.in"
