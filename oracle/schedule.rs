// A bond's flows from its terms, by walking the calendar: month by month from maturity back to the coupon dates, and day by
// day from evaluation on to count the days. There is no table of days and no formula for them. Written from document 02's
// request W1 alone.

use super::book::{refuse, Flow, Refusal};
use super::store::print_line;
use super::valuing::{nearest, print_checked, MILLION};

// ---------------------------------------------------------------------------------------------------------------------
// Dates
// ---------------------------------------------------------------------------------------------------------------------

// Any three numbers; not all are dates of the calendar. They are ordered by year, then month, then day.
#[derive(Clone, Copy, Debug, PartialEq, Eq, PartialOrd, Ord)]
pub struct Date {
    pub year: u32,
    pub month: u32,
    pub day: u32,
}

// The calendar's first day and its last.
pub const FIRST: Date = Date { year: 2000, month: 1, day: 1 };
pub const LAST: Date = Date { year: 2099, month: 12, day: 31 };

pub fn date(year: u32, month: u32, day: u32) -> Date {
    Date { year, month, day }
}

pub fn month_length(year: u32, month: u32) -> u32 {
    let leap = year % 4 == 0 && (year % 100 != 0 || year % 400 == 0);
    match month {
        2 if leap => 29,
        2 => 28,
        4 | 6 | 9 | 11 => 30,
        _ => 31,
    }
}

impl Date {
    // The three numbers, as a line of the C tests has them.
    pub fn numbers(self) -> String {
        format!("{} {} {}", self.year, self.month, self.day)
    }

    // As an argument of the C programs.
    pub fn text(self) -> String {
        format!("{:04}-{:02}-{:02}", self.year, self.month, self.day)
    }

    pub fn is_in_calendar(self) -> bool {
        (2000..=2099).contains(&self.year)
            && (1..=12).contains(&self.month)
            && (1..=month_length(self.year, self.month)).contains(&self.day)
    }

    pub fn next_day(self) -> Date {
        let Date { year, month, day } = self;
        match () {
            _ if day < month_length(year, month) => date(year, month, day + 1),
            _ if month < 12 => date(year, month + 1, 1),
            _ => date(year + 1, 1, 1),
        }
    }

    // The same day so many months before, or the last of that month where it has no such day.
    pub fn months_before(self, months: u32) -> Date {
        let (mut year, mut month) = (self.year - months / 12, self.month);
        for _ in 0..months % 12 {
            (year, month) = if month == 1 { (year - 1, 12) } else { (year, month - 1) };
        }
        date(year, month, self.day.min(month_length(year, month)))
    }
}

// ---------------------------------------------------------------------------------------------------------------------
// Flows, and refusals 25 to 27
// ---------------------------------------------------------------------------------------------------------------------

// The terms of a bond, and the day from which its flows are counted. The rate is the yearly coupon, in millionths.
#[derive(Clone, Copy, Debug, PartialEq)]
pub struct Terms {
    pub evaluation: Date,
    pub maturity: Date,
    pub rate: u32,
    pub frequency: u32,
}

// Days and amount of each flow.
pub type Flows = Vec<(u16, u32)>;

impl Terms {
    // The coupon dates after evaluation, rising; maturity is the last. Each is counted back from maturity itself.
    pub fn dates(&self) -> Vec<Date> {
        let step = 12 / self.frequency;
        let back = (0..).map(|i| self.maturity.months_before(i * step));
        let mut dates: Vec<Date> = back.take_while(|&date| date > self.evaluation).collect();
        dates.reverse();
        dates
    }

    // In millionths of nominal.
    pub fn coupon(&self) -> i128 {
        nearest(self.rate as i128, self.frequency as i128)
    }

    // The flows of more than 0, of rising dates after evaluation with a coupon each; the principal is due at maturity.
    pub fn paid(&self, coupons: impl Iterator<Item = (Date, i128)>) -> Flows {
        let (mut today, mut days) = (self.evaluation, 0);
        let mut paid = Vec::new();
        for (date, coupon) in coupons {
            while today < date {
                today = today.next_day();
                days += 1;
            }
            let amount = coupon + if date == self.maturity { MILLION } else { 0 };
            if amount > 0 {
                paid.push((days, u32::try_from(amount).unwrap()));
            }
        }
        paid
    }

    // The flows, for a lent buffer of so many bytes.
    pub fn flows(&self, room: usize) -> Result<Flows, Refusal> {
        if !self.evaluation.is_in_calendar() || !self.maturity.is_in_calendar() {
            return refuse(25, 0);
        }
        if self.maturity <= self.evaluation {
            return refuse(26, 0);
        }
        if ![1, 2].contains(&self.frequency) || self.rate > 1_000_000 {
            return refuse(27, 0);
        }
        let due = self.paid(self.dates().into_iter().map(|date| (date, self.coupon())));
        if due.len() > 120 || room < 8 * due.len() {
            return refuse(27, 0);
        }
        Ok(due)
    }
}

// ---------------------------------------------------------------------------------------------------------------------
// The call
// ---------------------------------------------------------------------------------------------------------------------

// The flows as the book's records.
pub fn records(flows: &[(u16, u32)]) -> Vec<u8> {
    flows.iter().flat_map(|&(days, amount)| Flow { days, zero: 0, amount }.bytes()).collect()
}

// What the call gives: how many flows there are, or number × 65,536 + item.
pub fn code_of(flows: &Result<Flows, Refusal>) -> u32 {
    match flows {
        Ok(flows) => flows.len() as u32,
        Err(Refusal { number, item }) => number * 65_536 + *item as u32,
    }
}

fn written(flows: &Result<Flows, Refusal>) -> Vec<u8> {
    flows.as_ref().map_or(Vec::new(), |flows| records(flows))
}

// What a line of the C tests ends with: what the call gives, and the records that it writes, in hexadecimal.
pub fn outcome(flows: &Result<Flows, Refusal>) -> String {
    let hex: String = written(flows).iter().map(|byte| format!("{byte:02x}")).collect();
    format!("{} {hex}", code_of(flows))
}

// What the lent buffer holds after the call.
pub fn held(flows: &Result<Flows, Refusal>, lent: &[u8]) -> Vec<u8> {
    let written = written(flows);
    [&written, &lent[written.len()..]].concat()
}

// The lines that the C programs print.
pub fn print_flows(flows: Result<Flows, Refusal>) -> String {
    print_checked(flows, |out, flows| {
        for (days, amount) in flows {
            print_line(out, &days.to_string(), &[amount]);
        }
    })
}
