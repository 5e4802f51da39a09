; How the program's code asks for memory: the answer is whether there is some, and where. An address is never null, so that of
; no block is that of a byte that stands for nothing.
target triple = "wasm64-unknown-unknown"

@nothing = internal global i8 0

declare ptr @malloc(i64)
declare ptr @realloc(ptr, i64)
declare void @free(ptr)

define internal { i64, i64 } @answer(ptr %block) {
  %none = icmp eq ptr %block, null
  %at = select i1 %none, ptr @nothing, ptr %block
  %address = ptrtoint ptr %at to i64
  %some = select i1 %none, i64 0, i64 1
  %half = insertvalue { i64, i64 } undef, i64 %some, 0
  %whole = insertvalue { i64, i64 } %half, i64 %address, 1
  ret { i64, i64 } %whole
}

; a block of no bytes is one of as many as its alignment
define internal i64 @asked(i64 %size, i64 %alignment) {
  %empty = icmp eq i64 %size, 0
  %bytes = select i1 %empty, i64 %alignment, i64 %size
  ret i64 %bytes
}

define { i64, i64 } @rattle_alloc(i64 %size, i64 %alignment) {
  %bytes = call i64 @asked(i64 %size, i64 %alignment)
  %block = call ptr @malloc(i64 %bytes)
  %answer = call { i64, i64 } @answer(ptr %block)
  ret { i64, i64 } %answer
}

define { i64, i64 } @rattle_realloc(ptr %old, i64 %kept, i64 %size, i64 %alignment) {
  %bytes = call i64 @asked(i64 %size, i64 %alignment)
  %block = call ptr @realloc(ptr %old, i64 %bytes)
  %answer = call { i64, i64 } @answer(ptr %block)
  ret { i64, i64 } %answer
}

define void @rattle_dealloc(ptr %block) {
  call void @free(ptr %block)
  ret void
}
