(* Zarith's whole numbers: up to 63 bits they are OCaml's own, for which nothing is called here. So the numbers that
   stand in the judge are made when it is compiled. *)
include Z

external own : t -> int = "%identity"
external of_own : int -> t = "%identity"
let zero = of_own 0
let one = of_own 1
let is_own x = Obj.is_int (Obj.repr x)
let is_short x = is_own x && -0x1000000000000000 < own x && own x < 0x1000000000000000
let add x y = if is_short x && is_short y then of_own Stdlib.(own x + own y) else add x y
let sub x y = if is_short x && is_short y then of_own Stdlib.(own x - own y) else sub x y
let succ x = add x one
let pred x = sub x one
let double x = add x x
let succ_double x = succ (double x)
let compare x y = if is_own x && is_own y then Stdlib.compare (own x) (own y) else compare x y
let equal x y = x == y || (not (is_own x || is_own y) && equal x y)
let leb x y = if is_own x && is_own y then own x <= own y else leq x y
let ltb x y = if is_own x && is_own y then own x < own y else lt x y
let pow x y = if sign y < 0 then zero else pow x (to_int y)
let div x y = if equal y zero then zero else fdiv x y
let modulo x y = if equal y zero then x else sub x (mul y (fdiv x y))
