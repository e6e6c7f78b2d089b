__kernel void lift(__global const uint *a0, __global uint *o0, const uint s0)
{
  uint v0;
  uint v1;
  uint v2;
  for (uint i0 = (uint)get_global_id(0); i0 < 8u; i0 += (uint)get_global_size(0)) {
    v0 = 0u;
    for (uint i1 = 0u; i1 < s0; i1 += 1u) {
      v1 = a0[((i1 * 8u) + i0)];
      v2 = (v1 * v1);
      v0 = (v0 + v2);
    }
    o0[i0] = v0;
  }
}
