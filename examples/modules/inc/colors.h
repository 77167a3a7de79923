int red;
int green;
int blue;
