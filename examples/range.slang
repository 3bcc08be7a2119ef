// What is read, and what is checked so far. In this folder: ../slangrun check range
static const int step = 2;

struct Range<T> where T : INumber
{
    T first, last;

    bool has(T number)
    {
        for (T at = first; at < last; at += step)
            if (at == number) return true;
        return false;
    }
}
