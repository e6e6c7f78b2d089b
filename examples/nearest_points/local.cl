__kernel void lift(__global const uint *a0, __global const uint *a1, __global const uint *a2, __global const uint *a3, __global const uint *a4, __global uint *o0, __global uint *o1, __global uint *o2, __global uint *o3, const uint s0)
{
  __local uint l0[16];
  __local uint l1[16];
  __local uint l2[16];
  uint v0;
  uint v1;
  uint v2;
  uint v3;
  uint v4;
  uint v5;
  uint v6;
  uint v7;
  uint v8;
  uint v9;
  uint v10;
  uint v11;
  uint v12;
  uint v13;
  uint v14;
  uint v15;
  uint v16;
  uint v17;
  uint v18;
  uint v19;
  uint v20;
  for (uint i0 = (uint)get_group_id(0); i0 < (s0 / 8u); i0 += (uint)get_num_groups(0)) {
    for (uint i1 = (uint)get_local_id(0); i1 < 16u; i1 += (uint)get_local_size(0)) {
      v0 = a0[i1];
      v1 = a1[i1];
      v2 = a2[i1];
      l0[i1] = v0;
      l1[i1] = v1;
      l2[i1] = v2;
    }
    barrier(CLK_LOCAL_MEM_FENCE);
    for (uint i1 = (uint)get_local_id(0); i1 < 8u; i1 += (uint)get_local_size(0)) {
      v3 = a3[((i0 * 8u) + i1)];
      v4 = a4[((i0 * 8u) + i1)];
      v5 = 4294967295u;
      v6 = 0u;
      v7 = 4294967295u;
      v8 = 0u;
      for (uint i2 = 0u; i2 < 16u; i2 += 1u) {
        v9 = l0[i2];
        v10 = l1[i2];
        v11 = l2[i2];
        v12 = (v9 - v3);
        v13 = (v10 - v4);
        v14 = ((v12 * v12) + (v13 * v13));
        v15 = (v14 < v5 ? 1u : 0u);
        v16 = (v14 < v7 ? 1u : 0u);
        v17 = (v15 == 0u ? v5 : v14);
        v18 = (v15 == 0u ? v6 : v11);
        v19 = (v15 == 0u ? (v16 == 0u ? v7 : v14) : v5);
        v20 = (v15 == 0u ? (v16 == 0u ? v8 : v11) : v6);
        v5 = v17;
        v6 = v18;
        v7 = v19;
        v8 = v20;
      }
      o0[((i0 * 8u) + i1)] = v5;
      o1[((i0 * 8u) + i1)] = v6;
      o2[((i0 * 8u) + i1)] = v7;
      o3[((i0 * 8u) + i1)] = v8;
    }
    barrier(CLK_LOCAL_MEM_FENCE);
  }
}
