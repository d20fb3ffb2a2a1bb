//! The calls beside what kinolavust.h and docs/ERRORS.md say of them.
use kinolavust::{Database, Options, Value};
use std::path::PathBuf;

/// A folder of a test, which is removed at its end.
struct Folder(PathBuf);

impl Folder {
    fn new(name: &str) -> Folder {
        let path = std::env::temp_dir().join(format!("kinolavust-{}-{name}", std::process::id()));
        std::fs::create_dir_all(&path).unwrap();
        Folder(path)
    }

    fn file(&self) -> PathBuf {
        self.0.join("calls.db")
    }
}

impl Drop for Folder {
    fn drop(&mut self) {
        std::fs::remove_dir_all(&self.0).unwrap();
    }
}

#[test]
fn values_come_back() {
    let folder = Folder::new("values");
    let db = Database::open(folder.file()).unwrap();
    let values = [
        Value::Null,
        Value::from(i64::MIN),
        Value::from("it's \0 ü"),
        Value::from(&b"\0\xff"[..]),
        Value::from(""),
        Value::from(&b""[..]),
    ];
    let literals: Vec<String> = values.iter().map(Value::literal).collect();
    let rows = db
        .connection(1)
        .execute(&format!("SELECT {}", literals.join(", ")))
        .unwrap();
    assert_eq!(rows, [values]);
}

#[test]
fn refusals_say_why() {
    let folder = Folder::new("refusals");
    let db = Database::open(folder.file()).unwrap();
    let connection = db.connection(1);
    connection.execute("CREATE TABLE t(a INTEGER)").unwrap();
    let refused = connection.execute("SELECT FROM t").unwrap_err();
    assert_eq!(
        (refused.number(), refused.name(), refused.place()),
        (7, "Syntax", 7)
    );
    let refused = connection.execute("SELECT x FROM t").unwrap_err();
    assert_eq!(
        (refused.number(), refused.subject(), refused.to_string()),
        (8, "x", "no such column: x".into())
    );
    assert_eq!(
        db.connection(17).execute("SELECT 1").unwrap_err().number(),
        11
    );
    assert_eq!(Database::open(folder.file()).err().unwrap().number(), 12);
    assert_eq!(Database::open("/nowhere/x.db").err().unwrap().number(), 2);
    assert_eq!(Database::open("a\0b").err().unwrap().number(), 11);
}

#[test]
fn a_transaction_that_is_dropped_is_rolled_back() {
    let folder = Folder::new("transactions");
    let db = Database::open_with(
        folder.file(),
        Options {
            page_size: 512,
            salts: 0,
        },
    )
    .unwrap();
    let connection = db.connection(1);
    let count = || db.connection(2).execute("SELECT count(*) FROM t").unwrap();
    connection.execute("CREATE TABLE t(a INTEGER)").unwrap();
    drop(connection.transaction().unwrap());
    {
        let transaction = connection.transaction().unwrap();
        transaction.execute("INSERT INTO t VALUES (1)").unwrap();
        assert!(connection.transaction().is_err(), "a transaction is active");
    }
    assert_eq!(count(), [[Value::from(0)]]);
    let transaction = connection.transaction().unwrap();
    transaction.execute("INSERT INTO t VALUES (1)").unwrap();
    transaction.rollback().unwrap();
    assert_eq!(count(), [[Value::from(0)]]);
    let transaction = connection.transaction().unwrap();
    transaction.execute("INSERT INTO t VALUES (1)").unwrap();
    transaction.commit().unwrap();
    drop(db);
    let db = Database::open(folder.file()).unwrap();
    assert_eq!(
        db.connection(1).execute("SELECT a FROM t").unwrap(),
        [[Value::from(1)]]
    );
}

#[test]
fn prepared_statements_take_values() {
    let folder = Folder::new("prepared");
    let db = Database::open(folder.file()).unwrap();
    let connection = db.connection(1);
    connection.execute("CREATE TABLE t(a INTEGER, b)").unwrap();
    let large = Value::from(vec![7; 900_000]);
    let values = [
        [Value::from(i64::MIN), Value::from("it's \0 \"ü\"")],
        [Value::from(i64::MAX), large],
        [Value::from(None::<i64>), Value::from(&b""[..])],
        [Value::from(true), Value::from(String::new())],
    ];
    let mut insert = connection
        .prepare("INSERT INTO t VALUES (?, ?) /* ? */ -- ?")
        .unwrap();
    assert_eq!(insert.parameter_count(), 2);
    for row in &values {
        insert.execute(row).unwrap();
    }
    assert_eq!(connection.execute("SELECT a, b FROM t").unwrap(), values);
    let mut query = db
        .connection(2)
        .prepare("SELECT a FROM t WHERE a > :least AND a <> :but")
        .unwrap();
    assert_eq!(query.parameter_index(":but"), Some(1));
    assert_eq!(query.parameter_index("but"), None);
    assert_eq!(
        query.query(&[0.into(), i64::MAX.into()]).unwrap(),
        [[Value::from(1)]]
    );
    let refused = query.query(&[0.into()]).unwrap_err();
    assert_eq!(
        (refused.number(), refused.to_string()),
        (
            11,
            "the statement has 2 parameters, and 1 were given".into()
        )
    );
    connection.execute("DROP TABLE t").unwrap();
    let refused = insert.execute(&values[0]).unwrap_err();
    assert_eq!((refused.number(), refused.subject()), (8, "t"));
    let refused = connection.prepare("SELECT ?, FROM t").err().unwrap();
    assert_eq!((refused.number(), refused.place()), (7, 10));
    assert_eq!(connection.prepare("BEGIN").err().unwrap().number(), 4);
}

#[test]
fn a_statement_of_a_transaction_stays() {
    let folder = Folder::new("stays");
    let db = Database::open(folder.file()).unwrap();
    let connection = db.connection(1);
    connection.execute("CREATE TABLE t(a INTEGER)").unwrap();
    let transaction = connection.transaction().unwrap();
    let mut insert = transaction.prepare("INSERT INTO t VALUES (?)").unwrap();
    insert.execute(&[1.into()]).unwrap();
    drop(transaction);
    insert.execute(&[2.into()]).unwrap();
    assert_eq!(
        connection.execute("SELECT a FROM t").unwrap(),
        [[Value::from(2)]]
    );
}
