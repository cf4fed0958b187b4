// An inflation bond's flows from its terms, its issue and index prices, over the calendar that schedule.rs walks. The largest
// earlier index number is looked for afresh at each coupon date. Written from document 02's request W4 alone, with document
// 004's table of a BTP Italia.

use super::book::{refuse, Refusal};
use super::schedule::{month_length, Date, Flows, Terms};
use super::valuing::nearest;
use std::fmt;

// A bond, and the index prices that are lent, in ten-thousandths, one a month from January 2000 on. `btp_italia` is 0 for no and
// any other number for yes.
#[derive(Clone, PartialEq)]
pub struct Linker {
    pub terms: Terms,
    pub issue: Date,
    pub btp_italia: u32,
    pub prices: Vec<u32>,
}

// Of many prices how many there are suffices: a test makes the same ones at every run.
impl fmt::Debug for Linker {
    fn fmt(&self, f: &mut fmt::Formatter) -> fmt::Result {
        let Linker { terms, issue, btp_italia, prices } = self;
        write!(f, "{terms:?}, issue {issue:?}, BTP Italia {btp_italia}, {} prices", prices.len())
    }
}

pub const MOST_PRICE: u32 = 10_000_000;
const MOST_COUPON: i128 = 10_000_000;

// One, of index coefficients.
const ONE: i128 = 100_000;

impl Linker {
    // The bond without its index, evaluated on the later of evaluation and issue.
    pub fn unindexed(&self) -> Terms {
        Terms { evaluation: self.terms.evaluation.max(self.issue), ..self.terms }
    }

    // Issue, and every coupon date after it, paid or not.
    fn dates(&self) -> Vec<Date> {
        let coupons = Terms { evaluation: self.issue, ..self.terms }.dates();
        [vec![self.issue], coupons].concat()
    }

    // The price of so many months before, if there is one.
    fn price(&self, date: Date, months: u32) -> Option<i128> {
        let month = (12 * (date.year - 2000) + date.month - 1).checked_sub(months)?;
        self.prices.get(month as usize).map(|&price| price as i128)
    }

    // The index number of issue or of a coupon date, in hundred-thousandths.
    pub fn number(&self, date: Date) -> Option<i128> {
        let (three, two) = (self.price(date, 3)?, self.price(date, 2)?);
        let (day, length) = (date.day as i128, month_length(date.year, date.month) as i128);
        Some(nearest(10 * (three * length + (day - 1) * (two - three)), length))
    }

    // Of the date after these, in hundred-thousandths.
    fn coefficient(&self, number: i128, earlier: &[i128]) -> i128 {
        let largest = earlier.iter().max().unwrap();
        nearest(ONE * number, if self.btp_italia != 0 { *largest } else { earlier[0] })
    }

    // The coupons due, by their dates; None where a price is missing.
    fn coupons(&self) -> Option<Vec<(Date, i128)>> {
        let dates = self.dates();
        let numbers: Vec<i128> = dates.iter().map(|&date| self.number(date)).collect::<Option<_>>()?;
        let mut coupons = Vec::new();
        for i in 1..dates.len() {
            let coefficient = self.coefficient(numbers[i], &numbers[..i]);
            if dates[i] > self.terms.evaluation {
                coupons.push((dates[i], nearest(self.terms.coupon() * coefficient, ONE)));
            }
        }
        Some(coupons)
    }

    // The flows, for a lent buffer of so many bytes.
    pub fn flows(&self, room: usize) -> Result<Flows, Refusal> {
        let Terms { evaluation, maturity, .. } = self.terms;
        if [evaluation, self.issue, maturity].iter().any(|date| !date.is_in_calendar()) {
            return refuse(25, 0);
        }
        // 26 of the later of evaluation and issue, and 27
        self.unindexed().flows(room)?;
        if self.prices.iter().any(|price| !(1..=MOST_PRICE).contains(price)) {
            return refuse(28, 0);
        }
        let Some(coupons) = self.coupons() else {
            return refuse(29, 0);
        };
        if coupons.iter().any(|&(_, coupon)| coupon > MOST_COUPON) {
            return refuse(30, 0);
        }
        Ok(self.terms.paid(coupons.into_iter()))
    }
}
