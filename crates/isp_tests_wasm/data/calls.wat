;; The module of calls.code, by hand from isp_wasm's specs/. Of a host's call: 0 the rung, 1 to 3 spare, 4 and 5 fresh, 6 and 7 the mask, 8 the calls that wait,
;; 9 where the next array lies. Of others' calls: 0 the calls that wait, 1 where the next array lies, 2 the mask, and then the same.
(module
  (type (func (param i32 i32)))
  (type (func (param i32 i32 i32 i32)))
  (type (func (param i64)))
  (type (func (param i64)))
  (type (func (param i32)))
  (type (func (param i32)))
  (type (func))
  (type (func))
  (type (func (param i32 i32 v128)))
  (type (func))
  (import "isp" "write" (func (type 0)))
  (import "isp" "trap" (func (type 1)))
  (import "isp" "print_signed" (func (type 2)))
  (import "isp" "print_unsigned" (func (type 3)))
  (import "isp" "print_bool" (func (type 4)))
  (import "isp" "print_byte" (func (type 5)))
  (func (type 6)
    unreachable)
  (func (type 7) (local i32 i32 i32 i64 v128 v128 v128 v128 i32 i32)
    global.get 17
    local.set 9
    v128.const i8x16 -1 -1 -1 -1 0 0 0 0 0 0 0 0 0 0 0 0
    local.set 6
    loop
      block
        local.get 0
        br_table 0 1
      end
      local.get 8
      i32.const 255
      i32.lt_u
      if
      else
        i32.const 3
        i32.const 0
        i32.const 1
        local.get 6
        i8x16.bitmask
        local.get 7
        i8x16.bitmask
        i32.const 65536
        i32.mul
        i32.add
        i32.ctz
        i32.const 0
        local.get 6
        i8x16.bitmask
        local.get 7
        i8x16.bitmask
        i32.const 65536
        i32.mul
        i32.add
        select
        call 1
        unreachable
      end
      local.get 8
      i32.const 1
      i32.add
      local.get 9
      local.get 6
      call 8
      return
    end
    unreachable)
  (func (type 8) (local i32 i32 i32 i64 v128 v128 v128 v128 i32 i32)
    loop
      block
        local.get 3
        br_table 0 1
      end
      i32.const 0
      i32.const 1
      call 0
      return
    end
    unreachable)
  (func (type 9)
    unreachable)
  (memory 1)
  (global i32 (i32.const 1))
  (global (mut v128) (v128.const i32x4 0 0 0 0))
  (global (mut v128) (v128.const i32x4 0 0 0 0))
  (global (mut v128) (v128.const i32x4 0 0 0 0))
  (global (mut v128) (v128.const i32x4 0 0 0 0))
  (global (mut v128) (v128.const i32x4 0 0 0 0))
  (global (mut v128) (v128.const i32x4 0 0 0 0))
  (global (mut v128) (v128.const i32x4 0 0 0 0))
  (global (mut v128) (v128.const i32x4 0 0 0 0))
  (global (mut v128) (v128.const i32x4 0 0 0 0))
  (global (mut v128) (v128.const i32x4 0 0 0 0))
  (global (mut v128) (v128.const i32x4 0 0 0 0))
  (global (mut v128) (v128.const i32x4 0 0 0 0))
  (global (mut v128) (v128.const i32x4 0 0 0 0))
  (global (mut v128) (v128.const i32x4 0 0 0 0))
  (global (mut v128) (v128.const i32x4 0 0 0 0))
  (global (mut v128) (v128.const i32x4 0 0 0 0))
  (global (mut i32) (i32.const 1))
  (export "isp.memory" (memory 0))
  (export "isp.base" (global 0))
  (export "isp.stack" (global 17))
  (export "calls" (func 7))
  (data (i32.const 0) "."))
