@x
  "old" \
@y
  "three" \
    " times" \
@z
