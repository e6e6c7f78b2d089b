__kernel void lift0(__global const uint *a0, __global uint *o0, const uint s0)
{
  uint4 w0;
  for (uint i0 = (uint)get_global_id(0); i0 < s0; i0 += (uint)get_global_size(0)) {
    w0 = vload4(i0, a0);
    vstore4((w0 * w0), i0, o0);
  }
}
__kernel void lift1(__global const uint *a0, __global const uint *a1, __global uint *o0, const uint s0)
{
  uint v0;
  uint v1;
  for (uint i0 = (uint)get_global_id(0); i0 < (4u * s0); i0 += (uint)get_global_size(0)) {
    v0 = 0u;
    for (uint i1 = 0u; i1 < 3u; i1 += 1u) {
      v1 = a1[min((max((i0 + i1), 1u) - 1u), ((4u * s0) - 1u))];
      v0 = (v0 + v1);
    }
    o0[i0] = v0;
  }
}
