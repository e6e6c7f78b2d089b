__kernel __attribute__((reqd_work_group_size(8, 8, 1))) void lift(__global const uint *a0, __global uint *o0, const uint s0, const uint s1)
{
  __local uint l0[64];
  uint v0;
  uint v1;
  for (uint i0 = (uint)get_group_id(1); i0 < s0; i0 += (uint)get_num_groups(1)) {
    for (uint i1 = (uint)get_group_id(0); i1 < s1; i1 += (uint)get_num_groups(0)) {
      v0 = a0[((((i0 * 8u) + (uint)get_local_id(1)) * (8u * s1)) + ((i1 * 8u) + (uint)get_local_id(0)))];
      l0[(((uint)get_local_id(1) * 8u) + (uint)get_local_id(0))] = v0;
      barrier(CLK_LOCAL_MEM_FENCE);
      v1 = l0[(((uint)get_local_id(0) * 8u) + (uint)get_local_id(1))];
      o0[((((((i1 * 8u) + (uint)get_local_id(1)) * s0) + i0) * 8u) + (uint)get_local_id(0))] = v1;
      barrier(CLK_LOCAL_MEM_FENCE);
    }
  }
}
