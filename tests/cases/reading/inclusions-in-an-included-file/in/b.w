@i c.w
x;
