__kernel __attribute__((reqd_work_group_size(4, 1, 1))) void lift(__global const uint *a0, __global uint *o0, const uint s0)
{
  __local uint l0[4];
  uint v0;
  uint v1;
  uint v2;
  for (uint i0 = (uint)get_group_id(0); i0 < (s0 / 2u); i0 += (uint)get_num_groups(0)) {
    v0 = a0[min((max(((i0 * 2u) + (uint)get_local_id(0)), 1u) - 1u), (s0 - 1u))];
    l0[(uint)get_local_id(0)] = v0;
    barrier(CLK_LOCAL_MEM_FENCE);
    if ((uint)get_local_id(0) < 2u) {
      v1 = 0u;
      for (uint i1 = 0u; i1 < 3u; i1 += 1u) {
        v2 = l0[((uint)get_local_id(0) + i1)];
        v1 = (v1 + v2);
      }
      o0[((i0 * 2u) + (uint)get_local_id(0))] = v1;
    }
    barrier(CLK_LOCAL_MEM_FENCE);
  }
}
