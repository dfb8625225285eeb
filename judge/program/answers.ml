(* What is said of an answer that `check`, `refute` or `settle` gave, whichever it is: a line and a status, a yes about
   no course of events, or why it isn't judged, in the words of FORMATS. *)

open Judge

type said = Line of int * String.t | Empty_yes of String.t | Unjudged of String.t

exception Unreadable of String.t

let most_words, most_refutation = 65_536, 65_536
let number = Whole.to_string

let why_word = function
  | Cut -> "cut" | BadSample -> "bad-sample" | MixedServers -> "mixed-servers" | RepeatedServer -> "repeated-server"
  | LeftOut -> "left-out" | Unbounded -> "unbounded" | Contradiction -> "contradiction" | Exceeds -> "exceeds"
  | Uncovered -> "uncovered"
let case_word = function
  | TooManyGroups -> "too-many-groups" | NoGroup -> "no-group" | RepeatedGroup -> "repeated-group"
  | RepeatedCase -> "repeated-case"
let input_word = function
  | Claim -> "claim" | Certificate -> "certificate" | Refutation -> "refutation" | Capture -> "capture"

(* The word of a fault's number, and what stands before the piece, the place or the code, if one is told. *)
let words = function
  | Claim -> ["json"; "field field "; "address"; "time"; "range"; "repeated-server"; "?"; "groups"]
  | Certificate -> ["json"; "top"; "shape piece "; "too-many-entries piece "; "too-many-pieces"]
  | Refutation -> ["json"; "shape"]
  | Capture -> ["torn-header"; "magic"; "version"; "link"; "torn-record at "; "too-long at "; "bad-fraction at "; "too-many"]

let words_of_covers = ["json"; "top"; "too-many-conflicts"; "conflicts"; "too-many-cases"; "case "; "too-many-pieces";
                       "shape piece "; "too-many-entries piece "]

let fault_of words input found place =
  let word = List.nth words (Whole.to_int found - 1) in
  let place = if word.[String.length word - 1] = ' ' then number place else "" in
  String.concat " " [input_word input; number found; word ^ place]

let fault input = fault_of (words input) input

let refusal_line = function
  | Too_big input -> "too-big " ^ input_word input
  | Claim_fault (found, code) -> fault Claim found code
  | Certificate_fault (found, piece) -> fault Certificate found piece
  | Covers_fault (found, place) -> fault_of words_of_covers Certificate found place
  | Refutation_fault found -> fault Refutation found Whole.zero
  | Capture_fault (found, place) -> fault Capture found place
  | Too_many_exchanges -> "exchanges over 1000000"

let told line_of = function Refused refusal -> Unjudged (refusal_line refusal) | Judged answer -> line_of answer

let yes = "verdict yes"
let no words = Line (1, String.concat " " ("verdict no" :: words))

let verdict_line = function Yes -> Line (0, yes) | No (piece, why) -> no ["piece"; number piece; why_word why]

let covers_line = function
  | Accepted is_empty -> if is_empty then Empty_yes yes else Line (0, yes)
  | NoConflict pair -> no ["conflict"; number pair; "no-conflict"]
  | NoCase -> no ["no-case"]
  | BadCase (case, why) -> no ["case"; number case; case_word why]
  | Unanswered -> no ["unanswered"]
  | BadPiece (case, piece, why) -> no ["case"; number case; "piece"; number piece; why_word why]

(* A certificate is one of pieces, or where its top has another shape, one by covers. *)
let check_line parse claim capture certificate =
  let is_top = Whole.equal (Whole.of_int 2) in
  match check parse claim capture certificate with
  | Refused (Certificate_fault (found, _)) as refused when is_top found -> (
    match check_covers parse claim capture certificate with
    | Refused (Covers_fault (found, _)) when is_top found -> told verdict_line refused
    | answer -> told covers_line answer)
  | answer -> told verdict_line answer

let refuted_line stands = if stands then Line (0, "refuted yes") else Line (1, "refuted no")

(* ---- answers in words *)

let text_of bytes most =
  let size = Whole.to_int bytes.size in
  String.init (min size most) (fun place -> Char.chr (Whole.to_int (bytes.byte_at (Whole.of_int place))))

let begins word text = String.length word <= String.length text && String.sub text 0 (String.length word) = word

(* A whole number of few digits. *)
let count word =
  let is_digit sign = '0' <= sign && sign <= '9' in
  if word = "" || String.length word > 8 || not (String.for_all is_digit word) then raise (Unreadable word);
  Whole.of_int (int_of_string ("0u" ^ word))

let address word =
  let part place text =
    let found = count text in
    if number found <> text || Whole.ltb (Whole.of_int 255) found then raise (Unreadable word);
    Whole.add (Whole.mul place (Whole.of_int 256)) found in
  match String.split_on_char '.' word with
  | [_; _; _; _] as parts -> List.fold_left part Whole.zero parts
  | _ -> raise (Unreadable word)

let conflict line =
  match String.split_on_char ' ' line with
  | ["conflict"; low; request; high; reply] ->
    { low_server = address low; low_record = count request; high_server = address high; high_record = count reply }
  | _ -> raise (Unreadable line)

let in_words parse claim capture text =
  let lines = String.split_on_char '\n' text in
  let lines = if List.nth lines (List.length lines - 1) = "" then List.rev (List.tl (List.rev lines)) else lines in
  let last = List.nth lines (List.length lines - 1) in
  let line is_right = Line (1, if is_right then last else "not right: " ^ last) in
  match lines, String.split_on_char ' ' last with
  | [_], ["no"; "evidence"; "groups"; heard; "of"; groups; "false_max"; most] ->
    let least = Whole.neg Whole.one in
    let whole word = try count word with Unreadable _ -> least in
    told line (no_evidence parse claim capture (whole heard) (whole groups) (whole most))
  | _, ["nothing"; "fits"] ->
    let conflicts = List.rev_map conflict (List.tl (List.rev lines)) in
    told line (nothing_fits parse claim capture conflicts)
  | _ -> Unjudged "answer of another form"

(* ---- any of them *)

(* A refutation has no such name, and fewer bytes. *)
let is_certificate third = function
  | Some (Members members) -> List.exists (fun name -> List.mem_assoc (Json.byte_list name) members) ["pieces"; "cases"]
  | _ -> Whole.ltb (Whole.of_int most_refutation) third.size

let said ~drift claim capture third =
  let start = text_of third 16 in
  if begins "open " start then Unjudged "answer `open`, which states nothing to judge"
  else if List.exists (fun word -> begins word start) ["conflict "; "nothing fits"; "no evidence "] then
    if Whole.ltb (Whole.of_int most_words) third.size then Unjudged "answer of too many bytes"
    else try in_words Json.parse claim capture (text_of third most_words) with Unreadable word ->
      Unjudged ("answer of another form: " ^ String.escaped word)
  else
    let most = Whole.of_int 134_217_728 in
    let value = if Whole.ltb most third.size then None else Json.parse third in
    let parse bytes = if bytes == third then value else Json.parse bytes in
    if is_certificate third value then check_line parse claim capture third
    else told refuted_line (refute parse drift claim capture third)
