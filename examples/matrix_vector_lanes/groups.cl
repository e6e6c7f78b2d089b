__kernel __attribute__((reqd_work_group_size(16, 1, 1))) void lift(__global const uint *a0, __global const uint *a1, __global uint *o0, const uint s0)
{
  __local uint l0[16];
  __local uint l1[16];
  uint v0;
  uint v1;
  uint v2;
  uint v3;
  uint v4;
  uint v5;
  uint v6;
  for (uint i0 = (uint)get_group_id(0); i0 < s0; i0 += (uint)get_num_groups(0)) {
    v0 = a1[(uint)get_local_id(0)];
    l0[(uint)get_local_id(0)] = v0;
    barrier(CLK_LOCAL_MEM_FENCE);
    v1 = 0u;
    for (uint i1 = 0u; i1 < 4u; i1 += 1u) {
      v2 = a0[((((i0 * 4u) + ((uint)get_local_id(0) % 4u)) * 16u) + ((i1 * 4u) + ((uint)get_local_id(0) / 4u)))];
      v3 = l0[((i1 * 4u) + ((uint)get_local_id(0) / 4u))];
      v4 = (v2 * v3);
      v1 = (v1 + v4);
    }
    l1[(uint)get_local_id(0)] = v1;
    barrier(CLK_LOCAL_MEM_FENCE);
    if ((uint)get_local_id(0) < 4u) {
      v5 = 0u;
      for (uint i1 = 0u; i1 < 4u; i1 += 1u) {
        v6 = l1[((i1 * 4u) + (uint)get_local_id(0))];
        v5 = (v5 + v6);
      }
      o0[((i0 * 4u) + (uint)get_local_id(0))] = v5;
    }
  }
}
