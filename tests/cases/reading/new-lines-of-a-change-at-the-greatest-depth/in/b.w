@i b.w
x
