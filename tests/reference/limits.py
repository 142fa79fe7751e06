"""The limits of files, reading and expansion, and white space. All names and texts are bytes."""

FILES = 256
NAME_BYTES = 255
LINE_BYTES = 65535
FILE_LINES = 1000000
OPEN_FILES = 10
LINES_TAKEN = 2000000
WEIGHT = 16777216
DEPTH = 1000
FILE_BYTES = 67108864

WHITE = b' \t\r\v\f'
