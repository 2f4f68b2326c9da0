; The heap of proved code over malloc, as the kit's c/heap.c has it, in the terms in which proved code calls it: so no platform's rules
; for structures of C matter. An answer is whether there is memory, and where. It is for processors whose addresses have 64 bits.
declare ptr @malloc(i64)
declare ptr @realloc(ptr, i64)
declare void @free(ptr)

; A size of 0 asks for as many bytes as the alignment has.
define { i64, i64 } @rattle_alloc(i64 %size, i64 %align) nounwind {
  %none = icmp eq i64 %size, 0
  %wanted = select i1 %none, i64 %align, i64 %size
  %place = call ptr @malloc(i64 %wanted)
  %answer = call { i64, i64 } @given(ptr %place)
  ret { i64, i64 } %answer
}

define { i64, i64 } @rattle_realloc(ptr %old, i64 %kept, i64 %size, i64 %align) nounwind {
  %none = icmp eq i64 %size, 0
  %wanted = select i1 %none, i64 %align, i64 %size
  %place = call ptr @realloc(ptr %old, i64 %wanted)
  %answer = call { i64, i64 } @given(ptr %place)
  ret { i64, i64 } %answer
}

define void @rattle_dealloc(ptr %old) nounwind {
  call void @free(ptr %old)
  ret void
}

; Without memory the place is 16, which is no place but a multiple of every alignment.
define internal { i64, i64 } @given(ptr %place) alwaysinline nounwind {
  %bad = icmp eq ptr %place, null
  %number = ptrtoint ptr %place to i64
  %where = select i1 %bad, i64 16, i64 %number
  %is = select i1 %bad, i64 0, i64 1
  %half = insertvalue { i64, i64 } poison, i64 %is, 0
  %whole = insertvalue { i64, i64 } %half, i64 %where, 1
  ret { i64, i64 } %whole
}
