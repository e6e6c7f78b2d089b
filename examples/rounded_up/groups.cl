__kernel void lift(__global const uint *a0, __global uint *o0, const uint s0)
{
  uint v0;
  uint v1;
  for (uint i0 = (uint)get_group_id(0); i0 < (s0 / 16u); i0 += (uint)get_num_groups(0)) {
    for (uint i1 = (uint)get_local_id(0); i1 < 16u; i1 += (uint)get_local_size(0)) {
      v0 = 0u;
      for (uint i2 = 0u; i2 < 3u; i2 += 1u) {
        v1 = a0[min((max((((i0 * 16u) + i1) + i2), 1u) - 1u), (s0 - 1u))];
        v0 = (v0 + v1);
      }
      o0[((i0 * 16u) + i1)] = v0;
    }
  }
}
