__kernel void lift(__global const uint *a0, __global const uint *a1, __global uint *o0, __global uint *o1, const uint s0, const uint s1)
{
  uint v0;
  uint v1;
  uint v2;
  uint v3;
  uint v4;
  uint v5;
  uint v6;
  for (uint i0 = (uint)get_global_id(0); i0 < s1; i0 += (uint)get_global_size(0)) {
    v0 = 4294967295u;
    v1 = 0u;
    for (uint i1 = 0u; i1 < s0; i1 += 1u) {
      v2 = a0[((i0 * s0) + i1)];
      v3 = a1[i1];
      v4 = (v2 < v0 ? 1u : 0u);
      v5 = (v4 == 0u ? v0 : v2);
      v6 = (v4 == 0u ? v1 : v3);
      v0 = v5;
      v1 = v6;
    }
    o0[i0] = v0;
    o1[i0] = v1;
  }
}
