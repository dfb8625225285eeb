(* What a JSON text says (RFC 8259, DEFINITIONS, section 8), or [None] where there is none. *)

open Judge

exception No_text

let levels = 127

let ten = Whole.of_int 10
let whole_of digits =
  let place x sign = Whole.add (Whole.mul x ten) (Whole.of_int (Char.code sign - 48)) in
  String.fold_left place Whole.zero digits

(* A text longer than a claim is nothing that any file has to have: its begin stands for it. *)
let byte_list text =
  let rec before place rest =
    if place = 0 then rest else before (place - 1) (Whole.of_int (Char.code text.[place - 1]) :: rest) in
  before (min 65_536 (String.length text)) []

(* Names come again and again. *)
let kept : (String.t, Whole.t list) Hashtbl.t = Hashtbl.create 16
let name_of text =
  match Hashtbl.find_opt kept text with
  | Some name -> name
  | None ->
    let name = byte_list text in
    if String.length text < 16 && Hashtbl.length kept < 64 then Hashtbl.add kept text name;
    name

let value_of (bytes : bytes) =
  let size = Whole.to_int bytes.size and place = ref 0 and buffer = Buffer.create 64 in
  let peek () = if !place < size then Whole.to_int (bytes.byte_at (Whole.of_int !place)) else -1 in
  let take () = let sign = peek () in if sign < 0 then raise No_text; incr place; sign in
  let is sign = peek () = Char.code sign in
  let skip sign = if is sign then (incr place; true) else false in
  let need sign = if not (skip sign) then raise No_text in
  let word text value = String.iter need text; value in
  let rec blanks () = if skip ' ' || skip '\t' || skip '\n' || skip '\r' then blanks () in
  let is_digit () = let sign = peek () in 48 <= sign && sign <= 57 in
  let keep () = Buffer.add_char buffer (Char.chr (take ())) in
  let some_digits () =
    if not (is_digit ()) then raise No_text;
    while is_digit () do keep () done in

  (* RFC 8259, section 6; none that rounds to no finite double *)
  let number () =
    Buffer.clear buffer;
    let minus = skip '-' in
    if is '0' then keep () else some_digits ();
    let is_point = is '.' in
    if is_point then (keep (); some_digits ());
    let is_power = is 'e' || is 'E' in
    if is_power then (keep (); if is '+' || is '-' then keep (); some_digits ());
    let digits = Buffer.contents buffer in
    if float_of_string digits = infinity then raise No_text;
    if is_point || is_power || (minus && digits = "0") then Fraction
    else Integer (if minus then Whole.neg (whole_of digits) else whole_of digits) in

  (* section 7, and UTF-8 (RFC 3629, section 4) *)
  let hexadecimal () =
    match Char.chr (take ()) with
    | '0' .. '9' as sign -> Char.code sign - 48
    | 'a' .. 'f' as sign -> Char.code sign - 87
    | 'A' .. 'F' as sign -> Char.code sign - 55
    | _ -> raise No_text in
  let four () = List.fold_left (fun code () -> code * 16 + hexadecimal ()) 0 [(); (); (); ()] in
  let scalar () =
    let code = four () in
    if code land 0xf800 <> 0xd800 then code
    else begin
      if code > 0xdbff then raise No_text;
      need '\\'; need 'u';
      let low = four () in
      if low land 0xfc00 <> 0xdc00 then raise No_text;
      0x10000 + (code land 0x3ff) * 1024 + low land 0x3ff
    end in
  let escape () =
    match Char.chr (take ()) with
    | ('"' | '\\' | '/') as sign -> Buffer.add_char buffer sign
    | 'b' -> Buffer.add_char buffer '\b'
    | 'f' -> Buffer.add_char buffer '\012'
    | 'n' -> Buffer.add_char buffer '\n'
    | 'r' -> Buffer.add_char buffer '\r'
    | 't' -> Buffer.add_char buffer '\t'
    | 'u' -> Buffer.add_utf_8_uchar buffer (Uchar.of_int (scalar ()))
    | _ -> raise No_text in
  let further low high =
    let sign = take () in
    if sign < low || high < sign then raise No_text;
    Buffer.add_char buffer (Char.chr sign) in
  let rest first =
    match first with
    | 0xe0 -> further 0xa0 0xbf; further 0x80 0xbf
    | 0xed -> further 0x80 0x9f; further 0x80 0xbf
    | 0xf0 -> further 0x90 0xbf; further 0x80 0xbf; further 0x80 0xbf
    | 0xf4 -> further 0x80 0x8f; further 0x80 0xbf; further 0x80 0xbf
    | _ when 0xc2 <= first && first <= 0xdf -> further 0x80 0xbf
    | _ when 0xe1 <= first && first <= 0xef -> further 0x80 0xbf; further 0x80 0xbf
    | _ when 0xf1 <= first && first <= 0xf3 -> further 0x80 0xbf; further 0x80 0xbf; further 0x80 0xbf
    | _ -> raise No_text in
  let text () =
    need '"';
    Buffer.clear buffer;
    while not (skip '"') do
      match take () with
      | 92 -> escape ()
      | sign when sign < 32 -> raise No_text
      | sign ->
        Buffer.add_char buffer (Char.chr sign);
        if sign >= 128 then rest sign
    done;
    Buffer.contents buffer in

  (* sections 3 to 5; what may stand once more behind a comma, up to a closing sign *)
  let several closing one =
    blanks ();
    if skip closing then []
    else
      let rec more found =
        let found = one () :: found in
        blanks ();
        if skip ',' then more found else (need closing; List.rev found) in
      more [] in
  let rec value level =
    blanks ();
    match peek () with
    | 123 (* { *) -> opened level; Members (several '}' (member (level + 1)))
    | 91 (* [ *) -> opened level; Items (several ']' (fun () -> value (level + 1)))
    | 34 -> Text (byte_list (text ()))
    | 116 -> word "true" Boolean
    | 102 -> word "false" Boolean
    | 110 -> word "null" Null
    | _ -> number ()
  and opened level = if level = levels then raise No_text; incr place
  and member level () =
    blanks ();
    let name = name_of (text ()) in
    blanks ();
    need ':';
    let said = value level in
    name, said in
  let said = value 0 in
  blanks ();
  if !place < size then raise No_text;
  said

let parse bytes = try Some (value_of bytes) with No_text -> None
