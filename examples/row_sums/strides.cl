__kernel void lift(__global const uint *a0, __global uint *o0, const uint s0)
{
  uint p0[4];
  uint v0;
  uint v1;
  uint v2;
  uint v3;
  for (uint i0 = (uint)get_global_id(0); i0 < s0; i0 += (uint)get_global_size(0)) {
    for (uint i1 = 0u; i1 < 4u; i1 += 1u) {
      v0 = 0u;
      for (uint i2 = 0u; i2 < 4u; i2 += 1u) {
        v1 = a0[((i0 * 16u) + ((i2 * 4u) + i1))];
        v0 = (v0 + v1);
      }
      p0[i1] = v0;
    }
    v2 = 0u;
    for (uint i1 = 0u; i1 < 4u; i1 += 1u) {
      v3 = p0[i1];
      v2 = (v2 + v3);
    }
    o0[i0] = v2;
  }
}
