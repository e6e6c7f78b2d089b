__kernel __attribute__((reqd_work_group_size(16, 1, 1))) void lift(__global const uint *a0, __global uint *o0, const uint s0)
{
  uint4 w0;
  for (uint i0 = (uint)get_group_id(0); i0 < s0; i0 += (uint)get_num_groups(0)) {
    w0 = vload4((((i0 * 64u) + ((uint)get_local_id(0) * 4u)) / 4u), a0);
    vstore4(min(((w0 * (uint4)(300u)) >> (uint4)(8u)), (uint4)(255u)), (((i0 * 64u) + ((uint)get_local_id(0) * 4u)) / 4u), o0);
  }
}
