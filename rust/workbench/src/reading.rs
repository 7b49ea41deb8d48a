//! Procedure files in words: why one is refused and what in one that loads is likely not meant, and the short form
//! there and back. The words are made by the crate `reader`.

use std::path::Path;

use command::Failure;
use pithread::Table;
use reader::{faults, form_of, lengthen, remarks, shorten, Finding, Form, Lengthened, Row};

use crate::asked::Asked;
use crate::procedure::refused;

/// The longest short form that is read: comments may make it far longer than the file that it stands for.
const MOST_SHORT_BYTES: usize = 1_000_000;

/// How many findings are shown at most; a file that is no procedure at all has thousands.
const MOST_FINDINGS: usize = 20;

/// Tells why a file is refused, field by field, or what in one that loads is likely not meant.
pub fn why(asked: &Asked) -> Result<(), Failure> {
    let path = asked.path(0)?;
    let source = Source::read(path)?;
    if source.file.is_empty() {
        return command::print(
            "answer",
            b"The file has no bytes, and loads as a procedure that ends at once. Was that meant?\n",
        );
    }
    let found = faults(&source.file);
    match found.first() {
        Some(first) => {
            command::print("findings", source.tell(&found).as_bytes())?;
            Err(refused(path, &first.refusal.to_string()))
        }
        None => command::print("remarks", source.remark(path)?.as_bytes()),
    }
}

/// Prints a file in the fixed columns.
pub fn long(asked: &Asked) -> Result<(), Failure> {
    let source = Source::read(asked.path(0)?)?;
    command::print("file", &source.file)
}

/// Prints a file in the short form, with a comment in words on each line.
pub fn short(asked: &Asked) -> Result<(), Failure> {
    let path = asked.path(0)?;
    let rows = Source::read(path)?.rows(path)?;
    command::print("short form", shorten(&rows).as_bytes())
}

/// A procedure file as it was read: in the fixed columns, and the short form that it was made from, if it was.
struct Source {
    file: Vec<u8>,
    short: Option<Lengthened>,
}

impl Source {
    fn read(path: &Path) -> Result<Source, Failure> {
        let bytes = command::read(path, MOST_SHORT_BYTES)?;
        if bytes.len() > MOST_SHORT_BYTES {
            return Err(Failure::Failed(format!("{path:?} has more than {MOST_SHORT_BYTES} bytes")));
        }
        match form_of(&bytes) {
            Form::Empty | Form::Long => Ok(Source { file: bytes, short: None }),
            Form::Short => {
                let short = lengthen(&bytes).map_err(|slip| refused(path, &slip.to_string()))?;
                Ok(Source { file: short.text(), short: Some(short) })
            }
        }
    }

    fn table(&self, path: &Path) -> Result<Table, Failure> {
        Table::load(&self.file).map_err(|refusal| refused(path, &format!("{refusal}; './run why' says more")))
    }

    /// The numbers of a file that loads.
    fn rows(&self, path: &Path) -> Result<Vec<Row>, Failure> {
        let table = self.table(path)?;
        Ok((0..table.lines()).map(|row| table.row(row)).collect())
    }

    /// The findings, each with its place in the short form if there is one.
    fn tell(&self, found: &[Finding]) -> String {
        let shown: Vec<String> =
            found.iter().take(MOST_FINDINGS).map(|finding| self.place(finding)).collect();
        let more = match found.len().saturating_sub(MOST_FINDINGS) {
            0 => String::new(),
            count => format!("\nand {count} more\n"),
        };
        shown.join("\n") + &more
    }

    fn place(&self, finding: &Finding) -> String {
        let place = finding.line().and_then(|line| {
            let short = self.short.as_ref()?;
            let (number, marked) = (short.short_line(line)?, short.marked(line, finding.field)?);
            Some(format!("in line {number} of the short form:\n{marked}\n"))
        });
        format!("{finding}\n{}", place.unwrap_or_default())
    }

    /// What is to be said of a file that loads. Lines are those of the fixed columns.
    fn remark(&self, path: &Path) -> Result<String, Failure> {
        let found = remarks(&self.table(path)?);
        let told = found.iter().map(|remark| format!("\n{remark}\n"));
        Ok(format!("The file loads; {} to be remarked.\n", amount(found.len())) + &told.collect::<String>())
    }
}

fn amount(count: usize) -> String {
    match count {
        0 => String::from("nothing is"),
        1 => String::from("one thing is"),
        _ => format!("{count} things are"),
    }
}
