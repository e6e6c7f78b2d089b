__kernel void lift(__global const uint *a0, __global uint *o0, const uint s0)
{
  uint v0;
  for (uint i0 = 0u; i0 < (s0 / 2u); i0 += 1u) {
    for (uint i1 = 0u; i1 < 4u; i1 += 1u) {
      for (uint i2 = 0u; i2 < 2u; i2 += 1u) {
        v0 = a0[((((i0 * 2u) + i2) * 4u) + i1)];
        o0[((((i1 * (s0 / 2u)) + i0) * 2u) + i2)] = v0;
      }
    }
  }
}
