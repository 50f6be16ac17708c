
; The one instruction of x86-64 that the bitcode names: bytes of a by the places of b, 0 where a place has its top bit set.
declare <16 x i8> @llvm.wasm.swizzle(<16 x i8>, <16 x i8>)

define internal <16 x i8> @bytes_of(<16 x i8> %a, <16 x i8> %b) alwaysinline nounwind {
  %places = and <16 x i8> %b, splat (i8 143)
  %bytes = call <16 x i8> @llvm.wasm.swizzle(<16 x i8> %a, <16 x i8> %places)
  ret <16 x i8> %bytes
}
