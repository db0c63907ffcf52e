//! An independent second program for document 01 (01-scope.md) and paragraphs L1,
//! L2, L4 and L5 of document 02 (02-change-requests.md). It shares no code with
//! the library it is compared with. See README.md.

mod calls;
mod drawing;
#[cfg(test)]
mod examples;
mod hostile;
#[cfg(test)]
mod kind_examples;
mod kinds;
mod lookups;
mod memory;
#[cfg(test)]
mod memory_examples;
mod precision;
mod rules;
mod texts;
mod widths;

fn main() {
    let arguments: Vec<String> = std::env::args().skip(1).collect();
    match arguments.iter().map(String::as_str).collect::<Vec<_>>()[..] {
        ["widths"] => widths::run(),
        ["hostile"] => hostile::run(),
        ["lookups"] => lookups::run(),
        ["memory"] => texts::run(),
        ["precision"] => precision::run(),
        _ => {
            eprintln!("usage: second widths | hostile | lookups | memory | precision");
            std::process::exit(2);
        }
    }
}
