//! Keeps an order in the file first.img; a second run finds what the first one left.
use orderset::{Layout, Mode, Set};

fn say(what: &str, done: orderset::Result<()>) {
    if let Err(error) = done {
        println!("{what}: {}", error.text());
    }
}

fn main() -> orderset::Result<()> {
    say("create", Set::create("first.img", 1000, Layout::One)); // room for 999 open orders
    let mut set = Set::open("first.img", Mode::Write)?;
    say("new", set.book_new(7u64, 100));
    say("fill", set.book_fill(7u64, 40));
    for record in set.orders()? {
        if let Some(order) = record.order() {
            println!("{}: ordered {}, filled {}", record.key, order.ordered, order.filled);
        }
    }
    Ok(())
}
