;; The module of own.code, by hand from isp_wasm's specs/: 0 the rung, 1 to 3 spare, 4 and 5 fresh, 6 and 7 the mask, 8 the calls that wait, 9 where the
;; next array lies, 10 and 11 the array: 16 bytes for each of four lanes, and one more is zeroed behind them. Lane 1 has its own from byte 16 on.
(module
  (type (func (param i32 i32)))
  (type (func (param i32 i32 i32 i32)))
  (type (func (param i64)))
  (type (func (param i64)))
  (type (func (param i32)))
  (type (func (param i32)))
  (type (func))
  (type (func))
  (import "isp" "write" (func (type 0)))
  (import "isp" "trap" (func (type 1)))
  (import "isp" "print_signed" (func (type 2)))
  (import "isp" "print_unsigned" (func (type 3)))
  (import "isp" "print_bool" (func (type 4)))
  (import "isp" "print_byte" (func (type 5)))
  (func (type 6)
    unreachable)
  (func (type 7) (local i32 i32 i32 i64 v128 v128 v128 v128 i32 i32 i32 i64)
    global.get 17
    local.set 9
    v128.const i8x16 -1 -1 -1 -1 0 0 0 0 0 0 0 0 0 0 0 0
    local.set 6
    local.get 9
    i32.const 0
    i32.const 65
    memory.fill
    local.get 9
    local.set 10
    i64.const 4
    local.set 11
    local.get 9
    i32.const 64
    i32.add
    local.set 9
    loop
      block
        local.get 0
        br_table 0 1
      end
      local.get 6
      i8x16.extract_lane_u 0
      if
        local.get 10
        i32.const 0
        i32.add
        i32.const 0
        i32.const 16
        memory.fill
      end
      local.get 6
      i8x16.extract_lane_u 1
      if
        local.get 10
        i32.const 16
        i32.add
        i32.const 0
        i32.const 16
        memory.fill
      end
      local.get 6
      i8x16.extract_lane_u 2
      if
        local.get 10
        i32.const 32
        i32.add
        i32.const 0
        i32.const 16
        memory.fill
      end
      local.get 6
      i8x16.extract_lane_u 3
      if
        local.get 10
        i32.const 48
        i32.add
        i32.const 0
        i32.const 16
        memory.fill
      end
      return
    end
    unreachable)
  (memory 1)
  (global i32 (i32.const 1))
  (global (mut v128) (v128.const i32x4 0 0 0 0))
  (global (mut v128) (v128.const i32x4 0 0 0 0))
  (global (mut v128) (v128.const i32x4 0 0 0 0))
  (global (mut v128) (v128.const i32x4 0 0 0 0))
  (global (mut v128) (v128.const i32x4 0 0 0 0))
  (global (mut v128) (v128.const i32x4 0 0 0 0))
  (global (mut v128) (v128.const i32x4 0 0 0 0))
  (global (mut v128) (v128.const i32x4 0 0 0 0))
  (global (mut v128) (v128.const i32x4 0 0 0 0))
  (global (mut v128) (v128.const i32x4 0 0 0 0))
  (global (mut v128) (v128.const i32x4 0 0 0 0))
  (global (mut v128) (v128.const i32x4 0 0 0 0))
  (global (mut v128) (v128.const i32x4 0 0 0 0))
  (global (mut v128) (v128.const i32x4 0 0 0 0))
  (global (mut v128) (v128.const i32x4 0 0 0 0))
  (global (mut v128) (v128.const i32x4 0 0 0 0))
  (global (mut i32) (i32.const 1))
  (export "isp.memory" (memory 0))
  (export "isp.base" (global 0))
  (export "isp.stack" (global 17))
  (export "own" (func 7))
  (data (i32.const 0) "."))
