use hostpath::{book_size, Book, Owner, Path, Refusal, BOOK_VALUE};

fn main() -> Result<(), Refusal> {
    let (mut buffer, mut room) = ([0; book_size(200)], [0; BOOK_VALUE]);
    let mut book = Book::new(&mut buffer, [150, 50])?; // slots for each of two owners
    let padded = "clients/07-tendermint-4/consensusStates/007-2";
    println!("{:?}", book.write(Owner::One, padded, "a digest")); // it is not its own key
    let key = Path::read(padded)?.path.to_string();
    book.write(Owner::One, &key, "a digest")?;
    let held = book.lookup_lenient(Owner::One, padded, &mut room)?;
    println!("{}: {}", held.key, held.value.escape_ascii());
    let other = book.lookup(Owner::One, "clients/007-tendermint-4/consensusStates/7-2", &mut room);
    println!("{other:?}");
    println!("{:?}", book.lookup(Owner::Two, &key, &mut room));
    Ok(())
}
