
; What the bitcode asks of x86-64 by name, as functions for WebAssembly; web/build puts them behind the program.

; PSHUFB: each byte of the answer is the one that the low four bits of %which name, or 0 where its highest bit is set.
define internal <16 x i8> @shuffled(<16 x i8> %bytes, <16 x i8> %which) alwaysinline {
  %place = and <16 x i8> %which, splat (i8 -113)
  %found = call <16 x i8> @llvm.wasm.swizzle(<16 x i8> %bytes, <16 x i8> %place)
  ret <16 x i8> %found
}

declare <16 x i8> @llvm.wasm.swizzle(<16 x i8>, <16 x i8>)

; A fence that keeps what is computed before it apart from what comes behind, which nothing here would join.
define internal double @unchanged(double %number) alwaysinline {
  ret double %number
}
