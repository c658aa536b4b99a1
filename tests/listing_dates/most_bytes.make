cat "$1/../listing/most_bytes.in"
