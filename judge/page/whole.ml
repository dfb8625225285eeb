type t

external of_int : int -> t = "%identity"
external to_int : t -> int = "%identity"
external add : t -> t -> t = "whole_add"
external sub : t -> t -> t = "whole_sub"
external mul : t -> t -> t = "whole_mul"
external div : t -> t -> t = "whole_div"
external compare : t -> t -> int = "whole_compare"
external to_string : t -> string = "whole_to_string"

let zero = of_int 0
let one = of_int 1
let double x = add x x
let succ x = add x one
let succ_double x = succ (double x)
let pred x = sub x one
let neg x = sub zero x
let modulo x y = sub x (mul y (div x y))
let equal x y = compare x y = 0
let leb x y = compare x y <= 0
let ltb x y = compare x y < 0
let max x y = if leb x y then y else x
let min x y = if leb x y then x else y
let abs x = max x (neg x)
let rec pow x y = if ltb y zero then zero else if equal y zero then one else mul x (pow x (pred y))
