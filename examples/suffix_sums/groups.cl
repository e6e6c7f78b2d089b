__kernel void lift(__global const uint *a0, __global const uint *a1, __global uint *o0, const uint s0)
{
  uint v0;
  uint v1;
  uint v2;
  uint v3;
  uint v4;
  for (uint i0 = (uint)get_group_id(0); i0 < s0; i0 += (uint)get_num_groups(0)) {
    for (uint i1 = (uint)get_local_id(0); i1 < 16u; i1 += (uint)get_local_size(0)) {
      v0 = a1[i1];
      v1 = 0u;
      for (uint i2 = 0u; i2 < 16u; i2 += 1u) {
        v2 = a0[((i0 * 16u) + (15u - i2))];
        v3 = a1[i2];
        v4 = ((v0 < v3 ? 1u : 0u) == 0u ? v2 : 0u);
        v1 = (v1 + v4);
      }
      o0[((i0 * 16u) + (15u - i1))] = v1;
    }
  }
}
