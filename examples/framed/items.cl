__kernel void lift(__global const uint *a0, __global uint *o0, const uint s0)
{
  uint v0;
  uint v1;
  for (uint i0 = (uint)get_global_id(0); i0 < (3u + s0); i0 += (uint)get_global_size(0)) {
    v0 = a0[min((max(i0, 1u) - 1u), (s0 - 1u))];
    v1 = (v0 * v0);
    o0[i0] = (v1 + 1u);
  }
}
