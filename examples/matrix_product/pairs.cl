__kernel void lift(__global const uint *a0, __global const uint *a1, __global uint *o0, const uint s0, const uint s1, const uint s2)
{
  uint v0;
  uint v1;
  uint v2;
  uint v3;
  for (uint i0 = (uint)get_global_id(1); i0 < s1; i0 += (uint)get_global_size(1)) {
    for (uint i1 = (uint)get_global_id(0); i1 < s2; i1 += (uint)get_global_size(0)) {
      v0 = 0u;
      for (uint i2 = 0u; i2 < s0; i2 += 1u) {
        v1 = a0[((i0 * s0) + i2)];
        v2 = a1[((i2 * s2) + i1)];
        v3 = (v1 * v2);
        v0 = (v0 + v3);
      }
      o0[((i0 * s2) + i1)] = v0;
    }
  }
}
