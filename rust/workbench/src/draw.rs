//! A picture of who waits for whom.

use command::Failure;
use picture::Picture;

use crate::asked::Asked;
use crate::procedure;

/// Prints the picture of a procedure file after so many steps, in one of two forms.
pub fn draw(asked: &Asked) -> Result<(), Failure> {
    let form = form_of(asked)?;
    let path = asked.path(0)?;
    let steps = asked.number(1, 0..=u16::MAX)?;
    let file = procedure::read(path)?;
    let name = path.file_name().unwrap_or(path.as_os_str()).to_string_lossy();
    let picture = Picture::of_file(&name, &file, steps)
        .map_err(|refusal| procedure::not_loaded(path, &file, refusal))?;
    command::print("picture", form(&picture).as_bytes())
}

/// How the picture is written.
fn form_of(asked: &Asked) -> Result<fn(&Picture) -> String, Failure> {
    let word = asked.word(2).unwrap_or_default();
    match word.to_str() {
        Some("--svg") => Ok(Picture::svg),
        Some("--dot") => Ok(Picture::dot),
        _ => Err(asked.wrong(&format!("{word:?} is neither --svg nor --dot"))),
    }
}
