__kernel void lift(__global const uint *a0, __global const uint *a1, __global uint *o0, const uint s0)
{
  uint p0[20];
  uint v0;
  uint v1;
  uint v2;
  uint v3;
  uint v4;
  for (uint i0 = (uint)get_global_id(0); i0 < (s0 / 16u); i0 += (uint)get_global_size(0)) {
    for (uint i1 = 0u; i1 < 20u; i1 += 1u) {
      v0 = a0[((i0 * 16u) + i1)];
      p0[i1] = v0;
    }
    for (uint i1 = 0u; i1 < 16u; i1 += 1u) {
      v1 = 0u;
      for (uint i2 = 0u; i2 < 5u; i2 += 1u) {
        v2 = p0[(i1 + i2)];
        v3 = a1[i2];
        v4 = (v2 * v3);
        v1 = (v1 + v4);
      }
      o0[((i0 * 16u) + i1)] = v1;
    }
  }
}
