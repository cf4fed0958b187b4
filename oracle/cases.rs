// The stored cases of the program `cases`: for each layer files, good and damaged, and what must be printed of each.
//
//     cases FOLDER                 FOLDER/data/LAYER/*, FOLDER/args, FOLDER/stdout
//     cases FOLDER SEED COUNT      the same of COUNT files by chance for each layer, for a longer comparison

mod book;
mod random;
mod reading_cases;
mod scenarios;
mod scenarios_cases;
mod store;
mod tails;
mod tails_cases;
mod unit;
mod unit_books;
mod unit_cases;
mod unit_faults;
mod valuing;
mod valuing_cases;

fn main() {
    let mut store = store::Store::from_args();
    reading_cases::put(&mut store);
    valuing_cases::put(&mut store);
    scenarios_cases::put(&mut store);
    tails_cases::put(&mut store);
    unit_cases::put(&mut store);
    store.write();
}
