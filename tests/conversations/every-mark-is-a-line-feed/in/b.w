included;
