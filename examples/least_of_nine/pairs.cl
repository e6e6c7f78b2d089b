__kernel void lift(__global const uint *a0, __global uint *o0, const uint s0, const uint s1)
{
  uint v0;
  uint v1;
  for (uint i0 = (uint)get_global_id(1); i0 < s0; i0 += (uint)get_global_size(1)) {
    for (uint i1 = (uint)get_global_id(0); i1 < s1; i1 += (uint)get_global_size(0)) {
      v0 = 4294967295u;
      for (uint i2 = 0u; i2 < 9u; i2 += 1u) {
        v1 = a0[((min((max((i0 + (i2 % 3u)), 1u) - 1u), (s0 - 1u)) * s1) + min((max((i1 + (i2 / 3u)), 1u) - 1u), (s1 - 1u)))];
        v0 = min(v0, v1);
      }
      o0[((i0 * s1) + i1)] = v0;
    }
  }
}
