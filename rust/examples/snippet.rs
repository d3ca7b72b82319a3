use std::process::ExitCode;
use std::{env, error::Error, fs};
use trovespan::{Container, AT_MOST, ENTRIES_EACH, LINE_ENTRIES, RECORD_ENTRIES};

fn main() -> ExitCode {
    match show() {
        Ok(()) => ExitCode::SUCCESS,
        Err(why) => {
            eprintln!("{why}");
            ExitCode::FAILURE
        }
    }
}

fn show() -> Result<(), Box<dyn Error>> {
    let path = env::args().nth(1).ok_or("usage: snippet FILE")?;
    let file = fs::read(path)?;
    let container = Container::open(&file)?;
    println!("page size {}, streams {}", container.header()?.page_size, container.stream_count()?);

    // A small file can have a stream of 4 GB. This allocates nothing for more than AT_MOST bytes.
    let stream = container.stream(1).bytes(AT_MOST)?;
    println!("stream 1: {} bytes", stream.len());

    // Four numbers for each annotation: opcode, first operand, second operand or 0, and 1 if all its numbers have their
    // shortest form, else 0. Here the operand 0x0f has a longer one.
    let mut store = [0; 8];
    let annotations = trovespan::decode(&[0x0b, 0x72, 0x06, 0x80, 0x0f], &mut store)?;
    println!("annotations {annotations}: {store:?}");

    // The first three of each as bytes again, in their shortest form.
    let records: Vec<i64> = store.chunks(ENTRIES_EACH).flat_map(|each| &each[..RECORD_ENTRIES]).copied().collect();
    let mut out = [0; 4];
    let length = trovespan::write_annotations(&records, &mut out)?;
    println!("written {length}: {out:02x?}");

    // The line records that annotations make. The first ends where the second begins. Nothing says where that ends.
    let mut store = [0; 2 * LINE_ENTRIES];
    let records = trovespan::run_lines(&[0x0b, 0x26, 0x0b, 0x43], &mut store)?;
    for record in trovespan::line_records(&store[..LINE_ENTRIES * records]).flatten() {
        println!("line {} at {}, length {:?}", record.line, record.offset, record.length);
    }
    Ok(())
}
