__kernel void lift(__global const uint *a0, __global uint *o0, const uint s0)
{
  uint v0;
  uint v1;
  for (uint i0 = (uint)get_global_id(0); i0 < s0; i0 += (uint)get_global_size(0)) {
    v0 = a0[i0];
    v1 = ((v0 * 300u) >> 8u);
    o0[i0] = min(v1, 255u);
  }
}
