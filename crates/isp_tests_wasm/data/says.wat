;; The module of says.code, by hand from isp_wasm's specs/: parameters none; 0 the rung, 1 to 3 spare, 4 and 5 fresh, 6 and 7 the mask, 8 the calls that wait, 9 where the next array lies.
(module
  (type (func (param i32 i32)))
  (type (func (param i32 i32 i32 i32)))
  (type (func (param i64)))
  (type (func (param i64)))
  (type (func (param i32)))
  (type (func (param i32)))
  (type (func))
  (import "isp" "write" (func (type 0)))
  (import "isp" "trap" (func (type 1)))
  (import "isp" "print_signed" (func (type 2)))
  (import "isp" "print_unsigned" (func (type 3)))
  (import "isp" "print_bool" (func (type 4)))
  (import "isp" "print_byte" (func (type 5)))
  (func (type 6) (local i32 i32 i32 i64 v128 v128 v128 v128 i32 i32)
    v128.const i8x16 -1 -1 -1 -1 0 0 0 0 0 0 0 0 0 0 0 0
    local.set 6
    loop
      block
        local.get 0
        br_table 0 1
      end
      i32.const 0
      i32.const 3
      call 0
      return
    end
    unreachable)
  (memory 1)
  (global i32 (i32.const 3))
  (global (mut v128) (v128.const i32x4 0 0 0 0))
  (global (mut v128) (v128.const i32x4 0 0 0 0))
  (global (mut v128) (v128.const i32x4 0 0 0 0))
  (global (mut v128) (v128.const i32x4 0 0 0 0))
  (global (mut v128) (v128.const i32x4 0 0 0 0))
  (global (mut v128) (v128.const i32x4 0 0 0 0))
  (global (mut v128) (v128.const i32x4 0 0 0 0))
  (global (mut v128) (v128.const i32x4 0 0 0 0))
  (global (mut v128) (v128.const i32x4 0 0 0 0))
  (global (mut v128) (v128.const i32x4 0 0 0 0))
  (global (mut v128) (v128.const i32x4 0 0 0 0))
  (global (mut v128) (v128.const i32x4 0 0 0 0))
  (global (mut v128) (v128.const i32x4 0 0 0 0))
  (global (mut v128) (v128.const i32x4 0 0 0 0))
  (global (mut v128) (v128.const i32x4 0 0 0 0))
  (global (mut v128) (v128.const i32x4 0 0 0 0))
  (global (mut i32) (i32.const 3))
  (export "isp.memory" (memory 0))
  (export "isp.base" (global 0))
  (export "isp.stack" (global 17))
  (export "says" (func 6))
  (data (i32.const 0) "hi\n"))
