//! An embedded SQL engine for one file of SQLite 3 in WAL mode.
//!
//! ```no_run
//! use kinolavust::{Database, Value};
//!
//! let db = Database::open("notes.db")?;
//! let connection = db.connection(1);
//! connection.execute("CREATE TABLE notes(subject TEXT, note TEXT)")?;
//! let transaction = connection.transaction()?;
//! let mut insert = transaction.prepare("INSERT INTO notes VALUES (?, ?)")?;
//! insert.execute(&["home".into(), "call Ann".into()])?;
//! transaction.commit()?;
//! let rows = connection.execute("SELECT note FROM notes")?;
//! assert_eq!(rows, [[Value::from("call Ann")]]);
//! # Ok::<(), kinolavust::Error>(())
//! ```

mod error;
mod statement;
mod value;

pub use error::{Error, Result};
pub use statement::Statement;
pub use value::Value;

use kinolavust_sys as sys;
use std::ffi::CString;
use std::path::Path;
use std::ptr;

/// The values of a row.
pub type Row = Vec<Value>;

/// An open database. The thread that opened it uses it alone, and no other process has the file open.
pub struct Database {
    at: *mut sys::kinolavust,
}

/// What is chosen of a new file.
#[derive(Clone, Copy, Debug, Default)]
pub struct Options {
    /// Bytes of a page: a power of two from 512 to 65536; 0 stands for 4096.
    pub page_size: u32,
    /// The salts of a new log; 0 stands for the default.
    pub salts: u64,
}

impl Database {
    /// Opens the database of a file, and creates it where the file doesn't exist or is blank.
    pub fn open(path: impl AsRef<Path>) -> Result<Database> {
        Database::open_with(path, Options::default())
    }

    /// Opens the database of a file; a new one is as the options say.
    pub fn open_with(path: impl AsRef<Path>, options: Options) -> Result<Database> {
        let path = CString::new(path.as_ref().as_os_str().as_encoded_bytes())
            .map_err(|_| Error::misuse("a path holds no zero byte".into()))?;
        let options = sys::kinolavust_options {
            page_size: options.page_size,
            salts: options.salts,
        };
        let mut db = Database {
            at: ptr::null_mut(),
        };
        // SAFETY: the path ends in a zero byte, and there is room for the pointer that is given. It is closed by `drop`, also
        // where the call is refused.
        match unsafe { sys::kinolavust_open(path.as_ptr(), &options, &mut db.at) } {
            sys::KINOLAVUST_OK => Ok(db),
            number => Err(Error::last(number, db.at)),
        }
    }

    /// One of the sixteen connections, 1 to 16. Each has its own transaction and snapshot.
    pub fn connection(&self, number: u32) -> Connection<'_> {
        Connection { db: self, number }
    }
}

impl Drop for Database {
    fn drop(&mut self) {
        // SAFETY: nothing points into it any more, since connections borrow it.
        unsafe { sys::kinolavust_close(self.at) }
    }
}

/// A connection of an open database.
#[derive(Clone, Copy)]
pub struct Connection<'a> {
    db: &'a Database,
    number: u32,
}

impl<'a> Connection<'a> {
    /// Executes one statement. Outside a transaction it commits by itself.
    pub fn execute(&self, sql: &str) -> Result<Vec<Row>> {
        let mut rows = Rows {
            at: ptr::null_mut(),
        };
        // SAFETY: the database is open, the text has so many bytes, and there is room for the pointer that is given.
        let number = unsafe {
            sys::kinolavust_execute(
                self.db.at,
                self.number,
                sql.as_ptr().cast(),
                sql.len(),
                &mut rows.at,
            )
        };
        match number {
            sys::KINOLAVUST_OK => Ok(rows.all()),
            number => Err(Error::last(number, self.db.at)),
        }
    }

    /// Reads a query, an INSERT, an UPDATE or a DELETE, to be run with values on this connection. A parameter is `?`, `?N` or `:name`.
    pub fn prepare(&self, sql: &str) -> Result<Statement<'a>> {
        Statement::prepare(*self, sql)
    }

    /// Begins a transaction, which is rolled back where it is let go of without a commit.
    pub fn transaction(&self) -> Result<Transaction<'a>> {
        self.execute("BEGIN")?;
        Ok(Transaction {
            connection: *self,
            is_open: true,
        })
    }
}

/// A transaction of a connection: dropped, it is rolled back.
#[must_use = "a transaction that is dropped is rolled back"]
pub struct Transaction<'a> {
    connection: Connection<'a>,
    is_open: bool,
}

impl<'a> Transaction<'a> {
    /// Executes one statement in the transaction.
    pub fn execute(&self, sql: &str) -> Result<Vec<Row>> {
        self.connection.execute(sql)
    }

    /// Reads a statement, to be run with values on the transaction's connection, also after its end.
    pub fn prepare(&self, sql: &str) -> Result<Statement<'a>> {
        self.connection.prepare(sql)
    }

    /// Commits. Refused, it is rolled back.
    pub fn commit(mut self) -> Result<()> {
        self.connection.execute("COMMIT")?;
        self.is_open = false;
        Ok(())
    }

    /// Rolls back.
    pub fn rollback(mut self) -> Result<()> {
        self.is_open = false;
        self.connection.execute("ROLLBACK").map(drop)
    }
}

impl Drop for Transaction<'_> {
    fn drop(&mut self) {
        if self.is_open {
            // (a refusal says that there is no transaction, or that the database has failed: nothing of it stays)
            let _ = self.connection.execute("ROLLBACK");
        }
    }
}

/// The rows of a reply.
struct Rows {
    at: *mut sys::kinolavust_rows,
}

impl Rows {
    fn all(&self) -> Vec<Row> {
        (0..self.count()).map(|row| self.row(row)).collect()
    }

    fn count(&self) -> usize {
        // SAFETY: the rows are those of a reply.
        unsafe { sys::kinolavust_row_count(self.at) }
    }

    fn row(&self, row: usize) -> Row {
        // SAFETY: the rows are those of a reply; a row past the last has no column.
        let count = unsafe { sys::kinolavust_column_count(self.at, row) };
        (0..count).map(|column| self.value(row, column)).collect()
    }

    fn value(&self, row: usize, column: usize) -> Value {
        // SAFETY: the rows are those of a reply; a value past the last is NULL.
        match unsafe { sys::kinolavust_kind(self.at, row, column) } {
            // SAFETY: as above.
            sys::KINOLAVUST_INTEGER => {
                Value::Integer(unsafe { sys::kinolavust_integer(self.at, row, column) })
            }
            sys::KINOLAVUST_TEXT => {
                Value::Text(String::from_utf8_lossy(self.bytes(row, column)).into_owned())
            }
            sys::KINOLAVUST_BLOB => Value::Blob(self.bytes(row, column).to_vec()),
            _ => Value::Null,
        }
    }

    fn bytes(&self, row: usize, column: usize) -> &[u8] {
        let mut len = 0;
        // SAFETY: the rows are those of a reply. The bytes of a text or a blob are there as long as they.
        unsafe {
            let at = sys::kinolavust_bytes(self.at, row, column, &mut len);
            if at.is_null() {
                return &[];
            }
            std::slice::from_raw_parts(at.cast(), len)
        }
    }
}

impl Drop for Rows {
    fn drop(&mut self) {
        // SAFETY: nothing points into them any more.
        unsafe { sys::kinolavust_free(self.at) }
    }
}
