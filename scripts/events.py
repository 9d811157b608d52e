"""The index of events: where each event of a session stands in each tower. pages.py puts it into docs/ARCHITECTURE.md.

A row names what is looked for, a column the crates in which it has to be defined. What isn't found there is written as *wanting*:
so the rows of an event that is being added show what is left to write.
"""
import os, re

ROOT = os.path.dirname(os.path.dirname(os.path.abspath(__file__)))

COLUMNS = [
    ("When it may be made", ["lvm_session", "lvm_calls", "lvm_move_keeps"]),
    ("What it makes", ["lvm_session", "lvm_calls", "lvm_move"]),
    ("Without bytes", ["lvm_invariant", "lvm_places"]),
    ("Found by", ["lvm_due", "lvm_moves", "lvm_session_turn"]),
    ("Made by", ["lvm_moves", "lvm_session_turn", "lvm_calls", "lvm_move"]),
    ("Stays sound", ["lvm_keeps", "lvm_keeps_events", "lvm_move_keeps"]),
    ("Less work", ["lvm_keeps", "lvm_keeps_events"]),
    ("Tied", ["lvm_tie", "lvm_move_tie"]),
]

# an event, and for each column the names, or nothing where the event has no such place
ROWS = [
    ("a request lands", "landing_due", "Lands", "LandsDone LandsLost LandsGot ReadFails FindsNoFresh", "first_landing", "land_at", "landing_keeps", "landing_falls", "land_ties"),
    ("a request is admitted", "may_be_admitted", "Admits", "Admits", "first_admission", "admit_at", "admission_keeps", "admission_falls", "admit_ties"),
    ("a track group is pinned", "may_pin", "Pins", "Pins", "pin_first", "pin_first", "pin_keeps", "pin_falls", "pin_ties"),
    ("a write of the status starts", "is_status_due", "StartsStatus", "BeginsUpdate StatusMoves", "status_start", "start_status", "status_start_keeps", "status_start_falls", "status_start_ties"),
    ("a note starts", "note_due", "StartsNote", "StartsNote", "first_note", "start_note", "note_start_keeps", "note_start_falls", "note_start_ties"),
    ("a transfer of a request starts", "target_due", "StartsData", "MayStartWrite ReadsFromCopy", "first_data", "start_data", "data_start_keeps", "data_start_falls", "data_start_ties"),
    ("the copy is read", "may_read", "ReadsCopy", "ReadsFromCopy", "copy_read", "read_copy", "copy_read_keeps", "copy_read_falls", "copy_starts_tie"),
    ("the copy is written", "may_write", "WritesCopy", "CopyWrites", "copy_write", "write_copy", "copy_write_keeps", "copy_write_falls", "copy_starts_tie"),
    ("a transfer of a request ends", "", "DataLearns", "Restages Wants", "reap_row", "end_data", "data_end_keeps", "data_end_falls", "data_end_ties"),
    ("a write of the status ends", "", "StatusLearns", "StatusMoves Commit UpdateEnds", "reap_row", "end_status", "status_end_keeps", "status_end_falls", "status_end_ties"),
    ("a note ends", "", "NoteLearns", "EndsNote", "reap_row", "end_note", "note_end_keeps note_fail_keeps", "note_end_falls note_fail_falls", "note_end_ties"),
    ("a transfer of the copy ends", "", "CopyLearns", "EndsStep Clears", "reap_row", "end_step", "copy_read_end_keeps copy_write_end_keeps", "copy_read_end_falls copy_write_end_falls", "copy_end_ties"),
    ("the votes are lost", "is_lost", "GoesOff", "Off", "", "finish", "off_keeps", "over_leaves_nothing", "sessions_end"),
    ("the power is off", "", "Darkens", "Cut", "", "finish", "cut_keeps", "over_leaves_nothing", "sessions_end"),
    ("a request is submitted", "ask_fault", "SubmitGives", "Submits", "", "submit_request", "submit_keeps", "", "submit_ties"),
    ("an answer is taken", "", "TakeGives", "TakesAnswerOf TakesEarlier", "", "take", "take_keeps", "", "take_ties"),
    ("a copy is opened", "copy_fault", "OpenGives", "Opens", "", "open_copy", "open_keeps", "", "open_ties"),
    ("a copy begins to move", "move_fault", "OpenMoveGives", "Opens", "", "open_move", "open_move_keeps", "", "open_move_ties"),
    ("a move is committed", "IsDrainedMoving", "CommitsMove", "Replaces", "", "commit_move", "move_keeps_sound", "", "move_ties"),
    ("a copy is closed", "", "closed", "", "", "close_copy", "close_keeps", "", "close_ties"),
    ("an order to the shelf", "", "ArrangesSession", "", "", "arrange", "order_keeps", "", "orders_tie"),
]


def defined(crates):
    found = set()
    for crate in crates:
        for folder in ("src", "specs"):
            for at, _, names in os.walk(f"{ROOT}/crates/{crate}/{folder}"):
                for name in names:
                    if name in ("passed.antt", "below.rt") or "/passed" in at or "/below" in at:
                        continue
                    found.add(name.split(".")[0])
                    with open(f"{at}/{name}", encoding="utf-8") as file:
                        text = file.read()
                    found |= set(re.findall(r"\bfn (\w+)", text))
                    found |= set(re.findall(r"^(?:abbrev|record|data|pub record|pub data|def|ind)(?: pub)? ?(\w+)", text, re.M))
                    found |= set(re.findall(r"^abbrev pub (\w+)", text, re.M))
    return found


def table():
    known = [defined(crates) for _, crates in COLUMNS]
    out = ["| Event | " + " | ".join(title for title, _ in COLUMNS) + " |", "|---" * (len(COLUMNS) + 1) + "|"]
    out.append("| | " + " | ".join(" ".join(f"`{it}`" for it in crates) for _, crates in COLUMNS) + " |")
    for event, *cells in ROWS:
        row = [", ".join(f"`{it}`" if it in names else f"*wanting: {it}*" for it in cell.split()) for cell, names in zip(cells, known)]
        out.append(f"| {event} | " + " | ".join(row) + " |")
    return out


if __name__ == "__main__":
    print("\n".join(table()))
