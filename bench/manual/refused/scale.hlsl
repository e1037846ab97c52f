RWStructuredBuffer<uint> numbers : register(u0);

[numthreads(4, 1, 1)]
void main(uint3 id : SV_DispatchThreadID) {
  numbers[id.x] = numbers[id.x] * 2;
}
