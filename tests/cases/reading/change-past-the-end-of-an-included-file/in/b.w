x;
y;
