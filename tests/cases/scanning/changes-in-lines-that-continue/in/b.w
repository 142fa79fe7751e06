  d \
