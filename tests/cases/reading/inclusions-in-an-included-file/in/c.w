w;
