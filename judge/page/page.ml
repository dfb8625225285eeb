(* The judge as the page's worker calls it: the files are numbered claim, capture, answer. *)

external size : int -> Whole.t = "page_size"
external byte : int -> Whole.t -> Whole.t = "page_byte"
external give : (int -> string) -> unit = "page_give"

let judged _ =
  let file number = { Judge.size = size number; byte_at = byte number } in
  match Answers.said ~drift:true (file 0) (file 1) (file 2) with
  | Line (status, line) -> string_of_int status ^ line
  | Empty_yes line -> "0" ^ line ^ "\nempty"
  | Unjudged why -> "2" ^ why
  | exception Stack_overflow -> "2out of stack"

let () = give judged
