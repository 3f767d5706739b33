//! A whole program, in one thread: `cargo run --offline --example parts`.

fn main() -> Result<(), rcuo::parts::Error> {
    let mut parts = rcuo::parts::open(&rcuo::parts::Settings { processors: 2, records: true, ..Default::default() })?;
    let old = String::from("the old version");
    parts.processors[0].call(0, move || println!("freed {old}"))?;
    while parts.processors[0].run(0, 10)? == 0 {
        for processor in &mut parts.processors {
            processor.quiescent()?; // no thread reads now as this processor
        }
        parts.driver.turn()?; // starts and ends grace periods
    }
    let closed = parts.close()?;
    println!("closed: {} ran", closed.ran[0].len());
    Ok(())
}
