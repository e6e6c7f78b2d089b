__kernel void lift0(__global const uint *a0, __global uint *o0, const uint s0)
{
  uint v0;
  uint v1;
  for (uint i0 = (uint)get_global_id(0); i0 < (2u + (16u * s0)); i0 += (uint)get_global_size(0)) {
    v0 = 0u;
    for (uint i1 = 0u; i1 < 3u; i1 += 1u) {
      v1 = a0[(i0 + i1)];
      v0 = (v0 + v1);
    }
    o0[i0] = v0;
  }
}
__kernel void lift1(__global const uint *a0, __global const uint *a1, __global uint *o0, const uint s0)
{
  uint v0;
  uint v1;
  for (uint i0 = (uint)get_global_id(0); i0 < (16u * s0); i0 += (uint)get_global_size(0)) {
    v0 = 0u;
    for (uint i1 = 0u; i1 < 3u; i1 += 1u) {
      v1 = a1[(i0 + i1)];
      v0 = (v0 + v1);
    }
    o0[i0] = v0;
  }
}
