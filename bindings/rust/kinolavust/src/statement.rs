//! Prepared statements.

use crate::{Connection, Error, Result, Row, Rows, Value};
use kinolavust_sys as sys;
use std::ptr;

/// A statement that was read once, to be run with values on its connection.
///
/// ```no_run
/// # let db = kinolavust::Database::open("notes.db")?;
/// let mut insert = db.connection(1).prepare("INSERT INTO notes VALUES (?, ?)")?;
/// insert.execute(&["home".into(), "call Ann".into()])?;
/// # Ok::<(), kinolavust::Error>(())
/// ```
pub struct Statement<'a> {
    connection: Connection<'a>,
    at: *mut sys::kinolavust_statement,
}

impl<'a> Statement<'a> {
    pub(crate) fn prepare(connection: Connection<'a>, sql: &str) -> Result<Statement<'a>> {
        let mut statement = Statement {
            connection,
            at: ptr::null_mut(),
        };
        let db = connection.db.at;
        // SAFETY: the database is open, the text has so many bytes, and there is room for the pointer that is given.
        let number = unsafe {
            sys::kinolavust_prepare(db, sql.as_ptr().cast(), sql.len(), &mut statement.at)
        };
        match number {
            sys::KINOLAVUST_OK => Ok(statement),
            number => Err(Error::last(number, db)),
        }
    }

    /// How many values the statement takes.
    pub fn parameter_count(&self) -> usize {
        // SAFETY: the statement is there until it is dropped.
        unsafe { sys::kinolavust_parameter_count(self.at) }
    }

    /// Which of the values is that of a name with its mark, as `:name`: 0 is the first.
    pub fn parameter_index(&self, name: &str) -> Option<usize> {
        // SAFETY: the statement is there, and the name has so many bytes.
        let place =
            unsafe { sys::kinolavust_parameter_place(self.at, name.as_ptr().cast(), name.len()) };
        place.checked_sub(1)
    }

    /// Runs the statement with these values, as many as it takes.
    pub fn execute(&mut self, values: &[Value]) -> Result<()> {
        self.query(values).map(drop)
    }

    /// Runs the statement with these values, as many as it takes, and gives its rows.
    pub fn query(&mut self, values: &[Value]) -> Result<Vec<Row>> {
        let count = self.parameter_count();
        if values.len() != count {
            let given = values.len();
            return Err(Error::misuse(format!(
                "the statement has {count} parameters, and {given} were given"
            )));
        }
        for (index, value) in values.iter().enumerate() {
            self.bind(index + 1, value)?;
        }
        self.run()
    }

    fn bind(&mut self, place: usize, value: &Value) -> Result<()> {
        // SAFETY: the statement is there, and texts and blobs have so many bytes, which are copied.
        let number = unsafe {
            match value {
                Value::Null => sys::kinolavust_bind_null(self.at, place),
                Value::Integer(number) => sys::kinolavust_bind_integer(self.at, place, *number),
                Value::Text(it) => {
                    sys::kinolavust_bind_text(self.at, place, it.as_ptr().cast(), it.len())
                }
                Value::Blob(it) => {
                    sys::kinolavust_bind_blob(self.at, place, it.as_ptr().cast(), it.len())
                }
            }
        };
        self.answer(number)
    }

    fn run(&mut self) -> Result<Vec<Row>> {
        let mut rows = Rows {
            at: ptr::null_mut(),
        };
        // SAFETY: the statement is there, and there is room for the pointer that is given.
        let number = unsafe { sys::kinolavust_run(self.at, self.connection.number, &mut rows.at) };
        self.answer(number)?;
        Ok(rows.all())
    }

    fn answer(&self, number: i32) -> Result<()> {
        match number {
            sys::KINOLAVUST_OK => Ok(()),
            number => Err(Error::last(number, self.connection.db.at)),
        }
    }
}

impl Drop for Statement<'_> {
    fn drop(&mut self) {
        // SAFETY: nothing points into it any more; NULL may be given.
        unsafe { sys::kinolavust_finish(self.at) }
    }
}
