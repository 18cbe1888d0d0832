;; The Fibonacci number of n, modulo 2^64, without locals for the two numbers at work: a block and a loop take them from the operands
;; and leave them there, and a function makes the next two of them. By wabt, as of Debian, the module is
;;
;;     wat2wasm fibonacci.wat -o fibonacci.wasm

(module
  (type $pair (func (param i64 i64) (result i64 i64)))

  ;; from a and b, one behind the other, to b and a + b
  (func $next (type $pair)
    local.get 1
    local.get 0
    local.get 1
    i64.add)

  (func (export "fibonacci") (param $n i32) (result i64)
    i64.const 0
    i64.const 1
    block $done (type $pair)
      loop $more (type $pair)
        local.get $n
        i32.eqz
        br_if $done
        local.get $n
        i32.const 1
        i32.sub
        local.set $n
        call $next
        br $more
      end
    end
    drop))
