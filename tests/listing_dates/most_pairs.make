cat "$1/../listing/most_pairs.in"
