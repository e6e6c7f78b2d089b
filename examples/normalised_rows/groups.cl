__kernel __attribute__((reqd_work_group_size(16, 1, 1))) void lift(__global const uint *a0, __global const uint *a1, __global uint *o0, const uint s0)
{
  __local uint l0[1];
  __local uint l1[16];
  __local uint l2[1];
  uint p0[1];
  uint p1[1];
  uint v0;
  uint v1;
  uint v2;
  uint v3;
  uint v4;
  uint v5;
  uint v6;
  uint v7;
  uint v8;
  uint v9;
  uint v10;
  uint v11;
  uint v12;
  uint v13;
  uint v14;
  uint v15;
  for (uint i0 = (uint)get_group_id(0); i0 < s0; i0 += (uint)get_num_groups(0)) {
    if ((uint)get_local_id(0) < 1u) {
      v0 = 0u;
      for (uint i1 = 0u; i1 < 16u; i1 += 1u) {
        v1 = a0[((i0 * 16u) + i1)];
        v0 = max(v0, v1);
      }
      l0[(uint)get_local_id(0)] = v0;
    }
    barrier(CLK_LOCAL_MEM_FENCE);
    v2 = a0[((i0 * 16u) + (uint)get_local_id(0))];
    v3 = l0[0u];
    l1[(uint)get_local_id(0)] = (65536u >> min(31u, (v3 - v2)));
    barrier(CLK_LOCAL_MEM_FENCE);
    if ((uint)get_local_id(0) < 1u) {
      v4 = 0u;
      for (uint i1 = 0u; i1 < 16u; i1 += 1u) {
        v5 = l1[i1];
        v4 = (v4 + v5);
      }
      l2[(uint)get_local_id(0)] = v4;
    }
    barrier(CLK_LOCAL_MEM_FENCE);
    v6 = l1[(uint)get_local_id(0)];
    v7 = l2[0u];
    v8 = 0u;
    v9 = 0u;
    for (uint i1 = 0u; i1 < 32u; i1 += 1u) {
      v10 = a1[i1];
      v11 = ((v9 << 1u) | (((v6 * 32768u) >> v10) & 1u));
      v12 = (v11 < v7 ? 1u : 0u);
      v13 = ((v8 << 1u) | (1u - v12));
      v14 = (v12 == 0u ? (v11 - v7) : v11);
      v8 = v13;
      v9 = v14;
    }
    p0[0u] = v8;
    p1[0u] = v9;
    for (uint i1 = 0u; i1 < 1u; i1 += 1u) {
      v15 = p0[i1];
      o0[((i0 * 16u) + (uint)get_local_id(0))] = v15;
    }
  }
}
