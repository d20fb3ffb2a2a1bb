//! Notes in a table: makes them in one transaction, and prints those of home.
use kinolavust::{Database, Result, Value};

fn main() -> Result<()> {
    let path = std::env::args().nth(1).unwrap_or("notes.db".into());
    let db = Database::open(path)?;
    let connection = db.connection(1);
    connection.execute("CREATE TABLE notes(subject TEXT, note TEXT)")?;
    let transaction = connection.transaction()?;
    let mut insert = transaction.prepare("INSERT INTO notes VALUES (?, ?)")?;
    insert.execute(&["home".into(), "call Ann".into()])?;
    insert.execute(&["work".into(), "write the report".into()])?;
    transaction.commit()?;
    let mut query = connection.prepare("SELECT note FROM notes WHERE subject = ?")?;
    for row in query.query(&["home".into()])? {
        if let Value::Text(note) = &row[0] {
            println!("{note}");
        }
    }
    Ok(())
}
