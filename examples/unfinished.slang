// A method whose expression stops too soon. In this folder: ../slangrun check unfinished
struct Range
{
    int first, last;
    int length() { return last - first + ; }
}
