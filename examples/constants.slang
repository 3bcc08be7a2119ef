// Type aliases and constants. In this folder: ../slangrun check constants
typealias Index = uint;
static const Index lanes = 64;
static const Index rows = 4;
static const Index threads = lanes * rows;
static const int last = threads - 1; // a uint is converted to int
static const bool wide = true;
