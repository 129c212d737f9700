//! `vr simulate`: a night when a stage box lied, on the proved library, told as text,
//! as JSON and as a picture.

mod boxes;
pub mod desk;
mod json;
mod night;
mod picture;
pub mod plan;
mod random;
mod text;

pub use json::json;
pub use night::{night, Both, Halted, Night, Port, Tick};
pub use picture::picture;
pub use text::text;

use std::path::PathBuf;

use desk::Proved;
use plan::Plan;

use crate::trouble::Trouble;
use crate::{files, Answer};

/// A night that is to be told.
#[derive(Debug, PartialEq, Eq)]
pub struct Simulate {
    pub plan: Plan,
    pub json: bool,
    /// Where to write the picture.
    pub svg: Option<PathBuf>,
}

pub fn simulate(asked: &Simulate) -> Result<Answer, Trouble> {
    asked.svg.as_deref().map_or(Ok(()), files::vacant)?;
    let night = proved(&asked.plan).map_err(refused)?;
    let mut answer = told(&night, asked.json);
    if let Some(new) = &asked.svg {
        files::write_new(new, picture(&night).as_bytes())?;
        // A pipe carries the night alone.
        answer.aside = Some(format!("written: {}", new.display()));
        answer.written = Some(new.clone());
    }
    Ok(answer)
}

/// The status is 1 if the night beside it was answered otherwise.
pub fn told(night: &Night, as_json: bool) -> Answer {
    let text = match as_json {
        true => json(night),
        false => text(night),
    };
    Answer::new(text, night.beside.differs.is_some().into())
}

/// The night of a plan on the proved library.
pub fn proved(plan: &Plan) -> Result<Night, u32> {
    let desk = || Proved::new(plan.settings());
    night(plan, desk()?, desk()?)
}

/// Of a refusal that no night should have.
fn refused(number: u32) -> Trouble {
    Trouble(format!(
        "the library refused a call of the night with {number}: please report this"
    ))
}
