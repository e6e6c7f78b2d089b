__kernel void lift0(__global const uint *a0, __global uint *o0, const uint s0)
{
  uint v0;
  for (uint i0 = (uint)get_global_id(0); i0 < s0; i0 += (uint)get_global_size(0)) {
    v0 = a0[i0];
    o0[i0] = (v0 * v0);
  }
}
__kernel void lift1(__global const uint *a0, __global const uint *a1, __global uint *o0, __global uint *o1, const uint s0)
{
  uint p0[1];
  uint v0;
  uint v1;
  uint v2;
  uint v3;
  for (uint i0 = (uint)get_global_id(0); i0 < s0; i0 += (uint)get_global_size(0)) {
    v0 = a1[i0];
    v1 = 0u;
    for (uint i1 = 0u; i1 < 3u; i1 += 1u) {
      v2 = a1[min((max((i0 + i1), 1u) - 1u), (s0 - 1u))];
      v1 = (v1 + v2);
    }
    p0[0u] = v1;
    for (uint i1 = 0u; i1 < 1u; i1 += 1u) {
      v3 = p0[i1];
      o0[i0] = v0;
      o1[i0] = v3;
    }
  }
}
__kernel void lift2(__global const uint *a0, __global const uint *a1, __global const uint *a2, __global const uint *a3, __global uint *o0, const uint s0)
{
  uint p0[1];
  uint v0;
  uint v1;
  uint v2;
  uint v3;
  for (uint i0 = (uint)get_global_id(0); i0 < s0; i0 += (uint)get_global_size(0)) {
    v0 = a2[i0];
    v1 = 0u;
    for (uint i1 = 0u; i1 < 3u; i1 += 1u) {
      v2 = a3[min((max((i0 + i1), 1u) - 1u), (s0 - 1u))];
      v1 = max(v1, v2);
    }
    p0[0u] = v1;
    for (uint i1 = 0u; i1 < 1u; i1 += 1u) {
      v3 = p0[i1];
      o0[i0] = (v3 - v0);
    }
  }
}
