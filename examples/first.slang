RWStructuredBuffer<int> b;
[shader("compute")]
[numthreads(1,1,1)]
void main(uint3 id : SV_DispatchThreadID)
{
    b[id.x] = 1;
}
