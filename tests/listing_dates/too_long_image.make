cat "$1/../listing/too_long_image.in"
