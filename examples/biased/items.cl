__kernel void lift(__global const uint *a0, __global const uint *a1, __global const uint *a2, __global uint *o0, const uint s0)
{
  uint v0;
  uint v1;
  uint v2;
  uint v3;
  uint v4;
  for (uint i0 = (uint)get_global_id(0); i0 < s0; i0 += (uint)get_global_size(0)) {
    v0 = a2[i0];
    v1 = v0;
    for (uint i1 = 0u; i1 < 4u; i1 += 1u) {
      v2 = a0[((i0 * 4u) + i1)];
      v3 = a1[i1];
      v4 = (v2 * v3);
      v1 = (v1 + v4);
    }
    o0[i0] = v1;
  }
}
