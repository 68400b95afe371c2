//! `rinnamoyle login CARD`

use super::options::{Known, Options};
use super::work::Lent;
use super::{files, input, refused, Said, NO, REFUSED, YES};
use rinnamoyle::{login, read_card, Answer, Refusal};

pub const KNOWN: Known = Known { valued: &["--scratch", "--allowance"], bare: &[], often: &[] };

pub fn run(options: &Options) -> Result<Said, String> {
    let card = files::read(options.file("CARD")?)?;
    let cost = read_card(&card).ok().map(|card| card.cost());
    let mut lent = Lent::asked(options, cost)?;
    let text = input::secret("user:password (not shown): ")?;
    let answer = lent.watched(cost, |scratch, allowance| login(&text, &card, scratch, allowance));
    let (text, status) = match answer {
        Answer::Yes => ("yes".into(), YES),
        Answer::No => ("no".into(), NO),
        Answer::Refused(refusal) => {
            let numbers = match (refusal, cost) {
                (Refusal::Derivation(reason), Some(cost)) => lent.numbers(cost, reason),
                _ => String::new(),
            };
            (refused(refusal) + &numbers, REFUSED)
        }
    };
    Ok(Said { text: text + "\n", status })
}
