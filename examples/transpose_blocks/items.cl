__kernel void lift(__global const uint *a0, __global uint *o0, const uint s0, const uint s1)
{
  uint v0;
  for (uint i0 = (uint)get_group_id(0); i0 < (s0 * s1); i0 += (uint)get_num_groups(0)) {
    for (uint i1 = (uint)get_local_id(0); i1 < 64u; i1 += (uint)get_local_size(0)) {
      v0 = a0[(((((i0 / s0) * 8u) + (i1 % 8u)) * (8u * s0)) + (((i0 % s0) * 8u) + (i1 / 8u)))];
      o0[(((((((i0 % s0) * 8u) + (i1 / 8u)) * s1) + (i0 / s0)) * 8u) + (i1 % 8u))] = v0;
    }
  }
}
