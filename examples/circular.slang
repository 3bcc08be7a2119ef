// Two constants that need each other, and one of another type. In this folder: ../slangrun check circular
static const int width = height + 1;
static const int height = width;
static const bool odd = 1;
