"""Where a source of the crates makes up a want of memory: an `AllocError`, or a fault's variant `Memory`, that no
refused allocation has led to. No clause can say that an allocation was refused, so this is a rule on what is written:

- `AllocError` stands in imports, types, the pattern `Err(AllocError) =>` and `map_err(AllocError::from)`, never a
  value.
- `Memory` is a value only where a want of memory was just matched, or is converted (`impl From<AllocError>`).
- Neither gets another name, and std's `AllocFailed`, which anybody could make, isn't named at all.
- What asks for memory asks for a length, a count or a name, a part or a sum of these, or one more: no other number.
"""
import re
from collections.abc import Iterable, Sequence

# What else is written, with the reason.
EXCEPTIONS = {
    "json_text/src/text.rt": [("if fault.is_memory() { Err(AllocError) }", "serde_json says it in words of its own")],
    "command_line/src/words.rt": [
        ("error::ErrorKind::OutOfMemory => Err(AllocError),",
         "clap says it in words of its own"),
        ("Err(_) => Err(AllocError),", "nothing else is left of how std's `args` fails"),
    ],
    "fault_words/src/slip.rt": [("Err(Error::OutOfMemory) => Err(AllocError),", "json says it in a word of its own")],
    "program/src/about.rt": [
        ("Err(SumFault::Memory) => Err(AllocError),", "the reading of sums says it in a word of its own")],
    "report/src/output.rt": [("RunFault::Device(_) | RunFault::Memory => {", "what was told is handed on")],
    "command_line/src/run.rt": [
        ("conclusion: conclude(&Err(RunFault::Memory), err),", "it is called where memory was refused"),
    ],
}
# These make faults, to hold what is said of them to its words.
TESTS = ("worked_examples",)

TOKEN = re.compile(r"""//[^\n]* | b?"(?:\\.|[^"\\])*" | b?'(?:\\.|[^'\\\n])' | \w+ | :: | => | -> | \S""", re.X | re.S)
# What is there for the prover alone makes nothing.
GHOST = re.compile(r"ghost use [^;]*;|(?:ghost \w+ [=:]|(?:ensures|requires|decreases|invariant)(?: \w+)?) (?={)")
IMPORT = r"use std :: alloc :: (?:AllocError ;|{ AllocError (?:, \w+ )*} ;)"
IN_PLACE = re.compile(rf"{IMPORT}|[,<] AllocError >|\( \w+ : AllocError \)|(?<=[{{}},] )Err \( AllocError \) =>"
                      r"|map_err \( AllocError :: from \)")
# The begin of an arm to which a want of memory leads, and nothing else.
MATCHED = re.compile(r"(?<=[{},] )(?:Err \( AllocError \)|\w+ :: Memory|Err \( \w+ :: Memory \)) => ")
DECLARED = re.compile(r"(?:impl From < AllocError > for|enum) \w+ (?={)")
LENGTH = r"(?:(?:\w+ \. )*(?:[a-z_]+|len \( \)|count \( \)) (?:as usize )?(?:/ [a-z]+ (?:as usize )?)?|[A-Z_]+ )"
ASKED = (("with_capacity\\w* ", re.compile(rf"\( \w+ , {LENGTH}(?:, \w+ )?\)")),
         ("(?:try_)?reserve\\w* ", re.compile(rf"\( {LENGTH}(?:\+ {LENGTH})*\)")),
         ("vec ! ", re.compile(rf"\[ (?:in \w+ ; [^;]*; {LENGTH}(?:\+ (?:{LENGTH}|1 ))*|in \w+ (?:; [^;]*)?)\]")))
"""What asks for memory, and how much it may ask for."""
GREATEST = re.compile(r"const (\w+) : \w+ = [^;]*\bMAX\b[^;]*;")


def spelled(text: str) -> str:
    """The tokens of a source with a space behind each, without its comments."""
    return "".join(f"{token} " for token in TOKEN.findall(text) if not token.startswith("//"))


def end_of(code: str, at: int) -> int:
    """Where the bracket ends that opens here; or, if none does, where a list's part ends that begins here."""
    depth = 0
    for found in re.compile(r"(?<!\S)[][(){},](?!\S)").finditer(code, at):
        closes, is_comma = found.group() in ")]}", found.group() == ","
        if not depth and (closes or is_comma):
            return found.start()
        depth += 0 if is_comma else -1 if closes else 1
        if not depth and closes and code[at] in "([{":
            return found.end()
    return len(code)


def without_ghosts(code: str) -> str:
    while found := GHOST.search(code):
        end = found.end() if found.group().endswith(";") else end_of(code, found.end())
        code = code[:found.start()] + code[end:]
    return code


def places_in(stretches: Iterable[tuple[int, int]]) -> set[int]:
    return {place for begin, end in stretches for place in range(begin, end)}


def wants_made_up(text: str, excepted: Sequence[tuple[str, str]] = ()) -> list[str]:
    """Where a source makes up a want of memory: a few words around each place."""
    code = without_ghosts(spelled(text))
    for written, _ in excepted:
        if code.count(spelled(written)) != 1:
            return [f"not there once: {written}"]
        code = code.replace(spelled(written), "")
    in_place = places_in(found.span() for found in IN_PLACE.finditer(code))
    lawful = places_in((found.start(), end_of(code, found.end()))
                       for rule in (MATCHED, DECLARED) for found in rule.finditer(code))
    imported = bool(re.search(IMPORT, code))
    made = [found.start() for found in re.finditer(r"\b(?:AllocError|AllocFailed)\b", code)
            if found.start() not in in_place or not imported]
    made += [found.start() for found in re.finditer(r"\bMemory\b", code) if found.start() not in lawful]
    for word, asked in ASKED:
        for found in re.finditer(rf"\b{word}(?=[(\[])", code):
            text = code[found.end():end_of(code, found.end())]
            if not asked.fullmatch(text) or set(GREATEST.findall(code)) & set(text.split()):
                made.append(found.start())
    return [code[max(0, place - 40):place + 40] for place in sorted(made)]


# A source that makes up nothing, and what would make it do so, in the place of the dots or before all of it.
LAWFUL = """
use std::alloc::{AllocError, Global};
fn counted(alloc: Global, exchanges: &[Exchange]) -> Result<u32, FindFault> {
    ..
    match copied(alloc, exchanges) {
        Ok(list) => Ok(list.len()),
        Err(AllocError) => Err(FindFault::Memory),
    }
}
"""
MAKING_UP = [
    "if exchanges.len() > 100_000 { return Err(AllocError); }",
    "if exchanges.len() > 100_000 { Err(AllocError)? }",
    "if exchanges.len() > 100_000 { return Err(FindFault::from(std::alloc::AllocError)); }",
    "let first = exchanges.first().ok_or(AllocError)?;",
    "judged(exchanges).map_err(|_| FindFault::Memory)?;",
    "let want: FindFault = FindFault::Memory;",
    "match judged(exchanges) { Ok(n) => n, Err(_) => return Err(FindFault::Memory) };",
    "match copied(alloc, exchanges) { Err(AllocError) => 0, Ok(9) => return Err(FindFault::Memory), Ok(n) => n };",
    "match copied(alloc, exchanges) { Err(AllocError) => {} Ok(_) => return Err(FindFault::Memory) };",
    "return Err(AllocError::from(AllocFailed { value: 0 }).into());",
    "let list = Vec::<u8>::with_capacity(alloc, usize::MAX)?;",
    "const MOST: usize = usize::MAX; let list = Vec::<u8>::with_capacity(alloc, MOST)?;",
    "list.try_reserve_exact(1 << 60)?;",
    "let list = vec![in alloc; 0_u8; exchanges.len() * 1_000_000_000_000]?;",
    "use crate::fault::FindFault::Memory; return Err(Memory);",
    "use std::alloc::AllocError as Refused; return Err(Refused);",
    "impl From<u8> for FindFault { fn from(_number: u8) -> FindFault { FindFault::Memory } }",
]
