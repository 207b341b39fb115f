//! The second program: the farm book once more, from documents 01 and 02 alone, to compare with.

mod makers;
mod model;

#[cfg(test)]
mod tests;

use makers::{
    cases, damages, desk, dice, doubts, farms, grams, pairs, rows, sets, texts, trial, whole_books,
};
use model::{
    compare, covered, feed, kilograms, kinds, lister, page, programs, records, salvage, sheets,
    state, table, typed, why,
};
use std::io::{self, BufRead, BufWriter, Read, Write};

const USAGE: &str = "usage:
  second list FILE|-                 the lister's text for a book
  second stored                      the stored trial cases
  second cases SEED COUNT [FIRST]    fresh trial cases, from the index FIRST on
  second answers                     reads cases, writes what they should give
  second desk SEED COUNT             books for the C host, with what they should give
  second typed                       reads a typed text, writes its book and says what the writer says
  second text SEED INDEX             a typed text by chance
  second salvage [LIST]              reads a damaged book, writes the clean one, perhaps the list's bytes to a file, and says what was dropped
  second damaged SEED INDEX          a damaged book by chance
  second book SEED INDEX             a book by chance
  second listed                      reads a book, prints and says what the lister does
  second retyped                     reads a book, prints and says what retype does
  second why                         reads a book, says why it is refused
  second doubtful SEED INDEX         a book by chance to ask that of
  second sheeted                     reads line records, writes their sheet and says what sheet_lines says
  second unsheeted                   reads a sheet, writes its line records and says what unsheet says
  second lines SEED INDEX            line records by chance
  second sheet SEED INDEX            a sheet by chance
  second booksheet                   reads a book, writes and says what sheet does
  second booklines                   reads a book, writes its line records
  second compare OLD NEW             two books, says what compare says of them
  second covered OLD NEW SAID        whether compare's text reports every line that two texts of the lister have not in common
  second pair SEED INDEX OLD NEW     writes two books by chance, one an edited copy of the other
  second records FILE|-              a book's records for machines, as records prints them
  second table FILE...               many books in one table for machines, as table prints it
  second set SEED INDEX FOLDER       writes a set of files by chance to a folder, some of them missing, and prints their names
  second edges FOLDER                writes books whose sums cross what eight bytes hold
  second page FILE|-                 the member's page of a book, as page prints it
  second farm SEED INDEX             a farm's book by chance, of several groups
  second kilograms                   reads grams, a number a line, prints and says what kilograms does
  second grams SEED INDEX            a text of grams by chance
  second kinds                       the table of kinds for machines, without its help
  second doubts                      how many doubtful books reach each end of each field's range
";

fn main() {
    let args: Vec<String> = std::env::args().skip(1).collect();
    let words: Vec<&str> = args.iter().map(String::as_str).collect();
    if let Err(fault) = answered(&words) {
        eprintln!("second: {fault}");
        std::process::exit(1);
    }
}

/// What is right: the answers of a program.
fn answered(words: &[&str]) -> Result<(), String> {
    match *words {
        ["list", file] => list(file),
        ["answers"] => answers(),
        ["typed"] => enter_typed(),
        ["salvage"] => save_damaged(None),
        ["salvage", list] => save_damaged(Some(list)),
        ["listed"] => tell(programs::listed),
        ["retyped"] => tell(programs::retyped),
        ["why"] => say_why(),
        ["sheeted"] => tell_sheet(sheets::sheeted),
        ["unsheeted"] => tell_sheet(sheets::unsheeted),
        ["booksheet"] => tell_sheet(sheets::booksheet),
        ["booklines"] => book_lines(),
        ["compare", old, new] => compare_books(old, new),
        ["covered", old, new, said] => all_reported(old, new, said),
        ["records", file] => tell_file(records::records, file),
        ["table", ..] => many_books(&words[1..]),
        ["page", file] => tell_file(page::page, file),
        ["kilograms"] => tell(kilograms::kilograms),
        ["kinds"] => write_bytes(kinds::table().as_bytes()),
        _ => made(words),
    }
}

/// What is tried: cases, books and texts, stored ones and by chance.
fn made(words: &[&str]) -> Result<(), String> {
    match *words {
        ["stored"] => write_all(cases::stored().into_iter().map(|case| case.text())),
        ["cases", seed, count] => fresh(seed, count, "0"),
        ["cases", seed, count, first] => fresh(seed, count, first),
        ["desk", seed, count] => desk_books(seed, count),
        ["text", seed, index] => by_chance(texts::text, seed, index),
        ["damaged", seed, index] => by_chance(damages::damaged, seed, index),
        ["book", seed, index] => by_chance(whole_books::book, seed, index),
        ["farm", seed, index] => by_chance(farms::farm, seed, index),
        ["grams", seed, index] => by_chance(grams::grams, seed, index),
        ["doubtful", seed, index] => by_chance(doubts::doubtful, seed, index),
        ["doubts"] => write_all(std::iter::once(format!("{}\n", doubts::enough()))),
        ["lines", seed, index] => by_chance(rows::lines, seed, index),
        ["sheet", seed, index] => by_chance(rows::sheet, seed, index),
        ["pair", seed, index, old, new] => write_pair(seed, index, old, new),
        ["set", seed, index, folder] => write_set(seed, index, folder),
        ["edges", folder] => write_edges(folder),
        _ => Err(USAGE.to_string()),
    }
}

fn whole_number(text: &str) -> Result<u64, String> {
    text.parse().map_err(|e| format!("{text:?}: {e}"))
}

/// Writes bytes and nothing else.
fn write_bytes(bytes: &[u8]) -> Result<(), String> {
    let mut out = io::stdout().lock();
    out.write_all(bytes).and_then(|()| out.flush()).map_err(|e| e.to_string())
}

/// Writes text after text, and tells of the first that can't be written.
fn write_all(texts: impl Iterator<Item = String>) -> Result<(), String> {
    let mut out = BufWriter::new(io::stdout().lock());
    for text in texts {
        out.write_all(text.as_bytes()).map_err(|e| e.to_string())?;
    }
    out.flush().map_err(|e| e.to_string())
}

/// A book by its file's name, or `-` for standard input.
fn read_book(file: &str) -> Result<Vec<u8>, String> {
    let mut book = Vec::new();
    let read = match file {
        "-" => io::stdin().read_to_end(&mut book),
        _ => std::fs::File::open(file).and_then(|mut f| f.read_to_end(&mut book)),
    };
    read.map_err(|e| format!("{file}: {e}"))?;
    Ok(book)
}

fn list(file: &str) -> Result<(), String> {
    write_all(std::iter::once(lister::list(&read_book(file)?)))
}

fn fresh(seed: &str, count: &str, first: &str) -> Result<(), String> {
    let (seed, count, first) = (whole_number(seed)?, whole_number(count)?, whole_number(first)?);
    write_all((first..first + count).map(|index| cases::fresh(seed, index).text()))
}

/// One case at a time, so that any number of them can stream through.
fn answers() -> Result<(), String> {
    let mut out = BufWriter::new(io::stdout().lock());
    for (number, line) in (1..).zip(io::stdin().lock().lines()) {
        let line = line.map_err(|e| e.to_string())?;
        let case = trial::Case::parse(&line).map_err(|fault| format!("line {number}: {fault}"))?;
        out.write_all(case.answer().as_bytes()).map_err(|e| e.to_string())?;
    }
    out.flush().map_err(|e| e.to_string())
}

fn desk_books(seed: &str, count: &str) -> Result<(), String> {
    let (seed, count) = (whole_number(seed)?, whole_number(count)?);
    write_all((0..count).map(|index| {
        let mut dice = dice::Dice::of_case(seed, index);
        let book = desk::some_book(&mut dice, index);
        desk::book_text(&mut dice, &book)
    }))?;
    write_all([desk::field_end_text(), desk::half_text(), desk::factors_text()].into_iter())?;
    let mut dice = dice::Dice::of_case(seed, count);
    let long_books = [desk::long_book(4_094), desk::long_book(4_095), desk::many_groups(4_094)];
    write_all(long_books.into_iter().map(|book| desk::book_text(&mut dice, &book)))
}

/// The book is on standard output, what is said on standard error; the status is 1 unless all was well.
fn enter_typed() -> Result<(), String> {
    let mut text = Vec::new();
    io::stdin().read_to_end(&mut text).map_err(|e| e.to_string())?;
    let entered = typed::enter(&text);
    write_bytes(&entered.book)?;
    eprint!("{}", entered.said);
    if !entered.right {
        std::process::exit(1);
    }
    Ok(())
}

/// The clean book is on standard output, what was dropped on standard error; the status is 1 where no book was saved or not all was read.
fn save_damaged(list: Option<&str>) -> Result<(), String> {
    let mut damaged = Vec::new();
    io::stdin().read_to_end(&mut damaged).map_err(|e| e.to_string())?;
    let told = salvage::tell(&damaged);
    write_bytes(&told.book)?;
    if let Some(list) = list {
        std::fs::write(list, &told.list).map_err(|e| e.to_string())?;
    }
    eprint!("{}", told.said);
    if !(told.saved && told.read) {
        std::process::exit(1);
    }
    Ok(())
}

/// What a program makes of the book on standard input, with its status.
fn tell(program: fn(&[u8]) -> programs::Told) -> Result<(), String> {
    tell_file(program, "-")
}

/// The same of a book by its file's name.
fn tell_file(program: fn(&[u8]) -> programs::Told, file: &str) -> Result<(), String> {
    let told = program(&read_book(file)?);
    write_bytes(told.printed.as_bytes())?;
    eprint!("{}", told.said);
    if !told.right {
        std::process::exit(1);
    }
    Ok(())
}

fn say_why() -> Result<(), String> {
    let mut book = Vec::new();
    io::stdin().read_to_end(&mut book).map_err(|e| e.to_string())?;
    let (said, accepted) = why::why(&book);
    write_bytes(said.as_bytes())?;
    if !accepted {
        std::process::exit(1);
    }
    Ok(())
}

/// Writes what a program of sheets writes, says what it says, and ends as it ends.
fn tell_sheet(program: fn(&[u8]) -> sheets::Told) -> Result<(), String> {
    let mut input = Vec::new();
    io::stdin().read_to_end(&mut input).map_err(|e| e.to_string())?;
    let (written, said, right) = program(&input);
    write_bytes(&written)?;
    eprint!("{said}");
    if !right {
        std::process::exit(1);
    }
    Ok(())
}

fn by_chance(make: fn(u64, u64) -> Vec<u8>, seed: &str, index: &str) -> Result<(), String> {
    write_bytes(&make(whole_number(seed)?, whole_number(index)?))
}

fn book_lines() -> Result<(), String> {
    let mut book = Vec::new();
    io::stdin().read_to_end(&mut book).map_err(|e| e.to_string())?;
    write_bytes(&feed::feed(&state::State::default(), &book, state::LARGE).lines)
}

fn read_file(file: &str) -> Result<Vec<u8>, String> {
    std::fs::read(file).map_err(|e| format!("{file}: {e}"))
}

fn compare_books(old: &str, new: &str) -> Result<(), String> {
    let (old, new) = (read_book(old)?, read_book(new)?);
    write_bytes(compare::compare(&old, &new).as_bytes())?;
    eprint!("{}", compare::hints(&old, &new));
    Ok(())
}

/// Prints how many lines differ.
fn all_reported(old: &str, new: &str, said: &str) -> Result<(), String> {
    let text = |file| String::from_utf8(read_file(file)?).map_err(|e| format!("{file}: {e}"));
    let count = covered::covered(&text(old)?, &text(new)?, &text(said)?)?;
    write_bytes(format!("{count}\n").as_bytes())
}

/// The status is 2 where no table can be made, and 1 where not every file is a closed book.
fn many_books(names: &[&str]) -> Result<(), String> {
    if table::misused(names) {
        eprintln!("second: no file, or a comma, a quote or a line end in a file's name");
        std::process::exit(2);
    }
    let files: Vec<_> = names.iter().map(|&name| (name, std::fs::read(name).ok())).collect();
    let (text, right) = table::table(&files);
    write_bytes(text.as_bytes())?;
    if !right {
        std::process::exit(1);
    }
    Ok(())
}

fn write_set(seed: &str, index: &str, folder: &str) -> Result<(), String> {
    let set = sets::set(whole_number(seed)?, whole_number(index)?);
    for (place, book) in set.iter().enumerate() {
        let name = format!("{folder}/{place} of set {index}.book");
        match book {
            Some(book) => std::fs::write(&name, book).map_err(|e| format!("{name}: {e}"))?,
            None => drop(std::fs::remove_file(&name)),
        }
        println!("{name}");
    }
    Ok(())
}

fn write_edges(folder: &str) -> Result<(), String> {
    for (name, book) in sets::edges() {
        let file = format!("{folder}/{name}.book");
        std::fs::write(&file, book).map_err(|e| format!("{file}: {e}"))?;
    }
    Ok(())
}

fn write_pair(seed: &str, index: &str, old: &str, new: &str) -> Result<(), String> {
    let (first, second) = pairs::pair(whole_number(seed)?, whole_number(index)?);
    for (file, book) in [(old, first), (new, second)] {
        std::fs::write(file, book).map_err(|e| format!("{file}: {e}"))?;
    }
    Ok(())
}
