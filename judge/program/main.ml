(* ntpaudit-judge: judges what ntpaudit answered, by the judge that is proved in Coq. *)

let usage = "Usage: ntpaudit-judge CLAIM CAPTURE CERTIFICATE            the last line of `ntpaudit check`
       ntpaudit-judge CLAIM CAPTURE REFUTATION [--drift]   that of `ntpaudit refute [--drift]`
       ntpaudit-judge CLAIM CAPTURE ANSWER --drift         whatever `settle` printed, but `open ..`

`-` is standard input. `nothing fits` and `no evidence ..` are printed again if they are right, else behind
`not right: `. Status: 0 yes; 1 no, or an answer in words; 2 not judged, and standard error says why.
There it notes too if by the conflicts of a certificate no course of events fits, so that a yes is empty.
"

exception Unreadable of string

let block = 1 lsl 20

(* The blocks of a file or a pipe, each but the last full, and how many bytes they hold. *)
let rec blocks_of channel found =
  let bytes = Bytes.create block in
  let rec filled at = match input channel bytes at (block - at) with 0 -> at | count -> filled (at + count) in
  let count = filled 0 in
  if count = block then blocks_of channel (bytes :: found)
  else Array.of_list (List.rev (bytes :: found)), List.length found * block + count

let read what path =
  try
    let channel = if path = "-" then stdin else open_in_bin path in
    let blocks, size = blocks_of channel [] in
    if path <> "-" then close_in channel;
    let byte_at place =
      let place = Whole.to_int place in
      Whole.of_int (Char.code (Bytes.unsafe_get blocks.(place lsr 20) (place land (block - 1)))) in
    { Judge.size = Whole.of_int size; byte_at }
  with Sys_error why -> raise (Unreadable (what ^ ": " ^ why))

let judged words =
  let drift = List.mem "--drift" words in
  match List.filter (fun word -> word <> "--drift") words with
  | [claim; capture; third] when List.length words <= 4 ->
    let claim = read "claim" claim in
    let third = read "answer" third in
    let capture = read "capture" capture in
    Answers.said ~drift claim capture third
  | ["--help"] | ["-h"] -> Line (0, String.sub usage 0 (String.length usage - 1))
  | _ -> Unjudged "three files, and --drift or not; --help says more"

let () =
  Gc.set { (Gc.get ()) with space_overhead = 40; minor_heap_size = 1 lsl 18 };
  set_binary_mode_in stdin true;
  let said =
    try judged (List.tl (Array.to_list Sys.argv)) with
    | Unreadable why -> Answers.Unjudged why
    | Out_of_memory -> Unjudged "out of memory"
    | Stack_overflow -> Unjudged "out of stack" in
  let printable sign = if ' ' <= sign && sign <= '~' then sign else '?' in
  let print status line =
    try print_string line; print_newline (); exit status with Sys_error why ->
      prerr_endline ("ntpaudit-judge: standard output: " ^ why);
      exit 2 in
  match said with
  | Line (status, line) -> print status line
  | Empty_yes line ->
    prerr_endline "ntpaudit-judge: note: no course of events fits the capture, so this says nothing";
    print 0 line
  | Unjudged why ->
    prerr_endline ("ntpaudit-judge: " ^ String.map printable why);
    exit 2
