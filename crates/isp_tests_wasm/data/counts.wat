;; The module of counts.code, by hand from isp_wasm's specs/: 0 and 1 the array, 2 is s0; 3 the rung, 4 to 6 spare, 7 to 14 fresh, 15 is s1, 16 is s2,
;; 17 and 18 the mask,
;; 19 and 20 of calls. A second rung begins at instruction 1.
(module
  (type (func (param i32 i32)))
  (type (func (param i32 i32 i32 i32)))
  (type (func (param i64)))
  (type (func (param i64)))
  (type (func (param i32)))
  (type (func (param i32)))
  (type (func))
  (type (func (param i32 i64 i32) (result i32)))
  (import "isp" "write" (func (type 0)))
  (import "isp" "trap" (func (type 1)))
  (import "isp" "print_signed" (func (type 2)))
  (import "isp" "print_unsigned" (func (type 3)))
  (import "isp" "print_bool" (func (type 4)))
  (import "isp" "print_byte" (func (type 5)))
  (func (type 6)
    unreachable)
  (func (type 7) (local i32 i32 i32 i64 v128 v128 v128 v128 v128 v128 v128 v128 i32 i32 v128 v128 i32 i32)
    v128.const i32x4 -1 -1 -1 -1
    local.set 17
    loop
      block
        block
          local.get 3
          br_table 0 1 2
        end
        i32.const 1
        local.set 16
      end
      local.get 2
      local.get 16
      i32.sub
      i32.const 65535
      i32.and
      local.set 2
      i32.const 0
      i32.const 1
      call 0
      local.get 16
      local.get 2
      i32.lt_u
      local.set 15
      local.get 15
      if
        i32.const 1
        local.set 3
        br 1
      end
      local.get 2
      return
    end
    unreachable)
  (memory 1)
  (global i32 (i32.const 1))
  (global (mut v128) (v128.const i32x4 0 0 0 0))
  (global (mut v128) (v128.const i32x4 0 0 0 0))
  (global (mut v128) (v128.const i32x4 0 0 0 0))
  (global (mut v128) (v128.const i32x4 0 0 0 0))
  (global (mut v128) (v128.const i32x4 0 0 0 0))
  (global (mut v128) (v128.const i32x4 0 0 0 0))
  (global (mut v128) (v128.const i32x4 0 0 0 0))
  (global (mut v128) (v128.const i32x4 0 0 0 0))
  (global (mut v128) (v128.const i32x4 0 0 0 0))
  (global (mut v128) (v128.const i32x4 0 0 0 0))
  (global (mut v128) (v128.const i32x4 0 0 0 0))
  (global (mut v128) (v128.const i32x4 0 0 0 0))
  (global (mut v128) (v128.const i32x4 0 0 0 0))
  (global (mut v128) (v128.const i32x4 0 0 0 0))
  (global (mut v128) (v128.const i32x4 0 0 0 0))
  (global (mut v128) (v128.const i32x4 0 0 0 0))
  (global (mut i32) (i32.const 1))
  (export "isp.memory" (memory 0))
  (export "isp.base" (global 0))
  (export "isp.stack" (global 17))
  (export "counts" (func 7))
  (data (i32.const 0) "."))
