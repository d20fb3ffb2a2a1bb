"""Notes in a table: makes them, and prints those of home."""
import sys

import kinolavust

with kinolavust.connect(sys.argv[1] if len(sys.argv) > 1 else "notes.db") as db:
    db.execute("CREATE TABLE notes(subject TEXT, note TEXT)")
    db.executemany("INSERT INTO notes VALUES (?, ?)", [("home", "call Ann"), ("work", "write the report")])
    for (note,) in db.execute("SELECT note FROM notes WHERE subject = :subject", {"subject": "home"}):
        print(note)
