int width;
