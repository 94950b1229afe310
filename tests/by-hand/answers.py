"""The answer of a function that gives up because memory ran out, by the type of its result."""

import re
from typing import NamedTuple

LOWEST = "vet_base"
OUT_OF_MEMORY = "sqlite::Error::SqliteFailure(sqlite::ErrorCode::OutOfMemory)"
# by the error of the result
ERRORS = {
    "Refusal": "{vet_base}::refusal::Refusal::NoMemory",
    "AllocError": "std::alloc::AllocError",
    "IoFault": "{vet_requests}::io_fault::IoFault::NoMemory",
    "InsertError": "matchit::InsertError::OutOfMemory",
    "ReadError": "{vet_item_rows}::read::read_error::ReadError::NoMemory",
    "CommitError": f"crate::change::CommitError::Before({OUT_OF_MEMORY})",
    "Refused": "crate::refused::Refused {{ refusal: {vet_base}::refusal::Refusal::NoMemory, conn: {conn} }}",
    "ReopenError": "crate::store::reopen_files::ReopenError {{ refusal: {vet_base}::refusal::Refusal::NoMemory, "
    "remains: crate::store::reopen_files::Remains::Conn({conn}) }}",
    "io": "std::io::Error::from(std::io::ErrorKind::OutOfMemory)",
}
# of an error that has this name alone, by the library from which its file has it
OF_LIBRARIES = {"clap": "clap::Error::from(std::alloc::AllocError)", "sqlite": OUT_OF_MEMORY}
# errors that say nothing of memory: where something would stand, and what is wrong with a request
NEVER = ("usize", "RequestFault")
# the results: of most, of what hands a connection back, and of what says how a run ended
PLAIN = re.compile(r"->\s*(?:(io)::Result<.*|Result<.*,\s*(\w+)(?:<\w+>)?,?\s*>)\s*$", re.S)
PAIR = re.compile(r"->\s*\(Result<.*,\s*(\w+)>,\s*(Option<)?Connection<\w+>+\)\s*$", re.S)
RUN = re.compile(r"->\s*DatabaseRun<\w+>\s*$")
LIBRARY = re.compile(r"^use (\w+)::(?:\{[^}]*\bError\b[^}]*\}|Error);", re.M)
# what has the connection, by the signature
HOLDERS = {r"\bconn: Connection<": "conn", r"\bstore: Store<": "store.close()", r"\(\s*self\b": "self.close()"}
# errors that give the connection back
HANDED_BACK = ("Refused", "ReopenError")


class Answer(NamedTuple):
    """What is answered, and the name of what is handed back with it, if anything is."""

    text: str
    holder: str | None = None

    def stands_behind(self, front):
        """Whether this can be answered behind these lines of the body: what is handed back was not given away."""
        holder = self.holder
        return not holder or not re.search(rf"[(,]\s*{holder}\s*[,)]|\b{holder}\.close\(\)", front)


def error_of(kind, crate, text, conn=None):
    """The error of this name in a file of a crate."""
    if kind == "Error":
        return OF_LIBRARIES[LIBRARY.search(text)[1]]
    crates = {name: "crate" if name == crate else name for name in (LOWEST, "vet_item_rows", "vet_requests")}
    return ERRORS[kind].format(conn=conn, **crates)


def holder_of(signature):
    return next(conn for pattern, conn in HOLDERS.items() if re.search(pattern, signature))


def answer_of(signature, crate, text):
    """The answer of a function of a file by which it gives up, if it has one."""
    signature = signature.rstrip()
    if RUN.search(signature):
        fault = error_of("IoFault", crate, text)
        home = "crate" if crate == "vetd_commands" else "vetd_commands"
        return Answer(f"{home}::databases::DatabaseRun {{ status: Err({fault}), conn: None }}")
    if found := PAIR.search(signature):
        fault, conn = error_of(found[1], crate, text), "None" if found[2] else holder_of(signature)
        return Answer(f"(Err({fault}), {conn})", None if found[2] else conn.partition(".")[0])
    found = PLAIN.search(signature)
    if not found or found[2] in NEVER:
        return None
    kind = found[1] or found[2]
    conn = holder_of(signature) if kind in HANDED_BACK else None
    return Answer(f"Err({error_of(kind, crate, text, conn)})", conn and conn.partition(".")[0])
