//! The entries `form` and `dimension`.

use crate::entries::Entries;
use crate::mistake::{quoted, Mistake};
use engine::Dimension;

/// The forms of a sheet.
#[derive(Clone, Copy, Debug, PartialEq, Eq)]
pub enum Form {
    Step,
    Correction,
    Gradient,
}

impl Form {
    const ALL: [Self; 3] = [Self::Step, Self::Correction, Self::Gradient];

    fn name(self) -> &'static str {
        match self {
            Self::Step => "step",
            Self::Correction => "correction",
            Self::Gradient => "gradient",
        }
    }

    fn fields(self) -> &'static [&'static str] {
        match self {
            Self::Step => &[
                "velocity",
                "pressure",
                "momentum-diagonal",
                "momentum-response",
                "wall-flux",
                "pressure-correction",
            ],
            Self::Correction => &["pressure-correction", "predicted-flux", "face-coefficient"],
            Self::Gradient => &["pressure", "face-value"],
        }
    }

    /// Sees that a sheet of this form has no field of another.
    pub fn check_fields(self, entries: &Entries<'_>) -> Result<(), Mistake> {
        let fields = Self::ALL.into_iter().flat_map(Self::fields);
        for name in fields.filter(|name| !self.fields().contains(name)) {
            entries.refuse(name, &format!("is no field of `form {}`", self.name()))?;
        }
        Ok(())
    }
}

/// The form of a sheet.
pub fn form(entries: &Entries<'_>) -> Result<Form, Mistake> {
    let entry = entries.need("form", "every sheet needs")?;
    let word = entry.only_word("`step`, `correction` or `gradient`")?;
    let found = Form::ALL.into_iter().find(|form| form.name() == word);
    found.ok_or_else(|| {
        let reason = format!(
            "expected `form step`, `form correction` or `form gradient`, found {}",
            quoted(word)
        );
        Mistake::new(entry.line, reason)
    })
}

/// The dimension of a sheet.
pub fn dimension(entries: &Entries<'_>) -> Result<Dimension, Mistake> {
    let entry = entries.need("dimension", "every sheet needs")?;
    match entry.only_word("2 or 3")? {
        "2" => Ok(Dimension::Two),
        "3" => Ok(Dimension::Three),
        word => {
            let reason = format!(
                "expected `dimension 2` or `dimension 3`, found {}",
                quoted(word)
            );
            Err(Mistake::new(entry.line, reason))
        }
    }
}
