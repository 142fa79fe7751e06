A change file gives a web other lines without touching it. Text outside the changes is a comment.

This change has a greater bound than the web.

@x
enum { LIMIT = 50 };
@y
enum { LIMIT = 100 };
@z

This one reaches into the included file: one byte for each entry is more than is needed, but a name says so.

@x
static char is_composite[LIMIT];
@y
typedef unsigned char flag;
static flag is_composite[LIMIT];
@z
