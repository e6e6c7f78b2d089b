__kernel __attribute__((reqd_work_group_size(16, 1, 1))) void lift(__global const uint *a0, __global const uint *a1, __global uint *o0, const uint s0)
{
  __local uint l0[16];
  uint v0;
  uint v1;
  uint v2;
  uint v3;
  uint v4;
  uint v5;
  for (uint i0 = (uint)get_group_id(0); i0 < s0; i0 += (uint)get_num_groups(0)) {
    v0 = a0[((i0 * 16u) + (uint)get_local_id(0))];
    l0[(uint)get_local_id(0)] = v0;
    barrier(CLK_LOCAL_MEM_FENCE);
    v1 = a1[(uint)get_local_id(0)];
    v2 = 0u;
    for (uint i1 = 0u; i1 < 16u; i1 += 1u) {
      v3 = l0[i1];
      v4 = a1[i1];
      v5 = ((v1 < v4 ? 1u : 0u) == 0u ? v3 : 0u);
      v2 = (v2 + v5);
    }
    o0[((i0 * 16u) + (uint)get_local_id(0))] = v2;
    barrier(CLK_LOCAL_MEM_FENCE);
  }
}
