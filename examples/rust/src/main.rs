//! The report of examples/report in Rust: pushes the streams of its feeds, undoes the correction, and writes the views to
//! the folder that is named. Run it at the top of the repository, where `make lib` made the library:
//!
//!     cargo run --manifest-path examples/rust/Cargo.toml --target-dir out/cargo -- out

mod lv;

use lv::{recast, Session};
use std::error::Error;
use std::fs;
use std::path::Path;

fn push(session: &mut Session, feed: &str) -> Result<(), Box<dyn Error>> {
    let stream = fs::read(format!("examples/report/{feed}.arrows"))?;
    session.push(feed, &stream)?;
    Ok(())
}

fn write_views(session: &mut Session, folder: &Path, number: u32) -> Result<(), Box<dyn Error>> {
    for view in ["report", "countries", "heaviest"] {
        let stream = session.view(view)?;
        fs::write(folder.join(format!("{view}-{number}.arrows")), &stream)?;
        println!("{view}-{number}: wrote {}", stream.len());
    }
    Ok(())
}

fn main() -> Result<(), Box<dyn Error>> {
    let folder = std::env::args().nth(1).unwrap_or_else(|| ".".to_string());
    let folder = Path::new(&folder);
    let mut session = Session::open(&fs::read_to_string("examples/report/report.toml")?)?;
    push(&mut session, "ports")?;
    push(&mut session, "calls")?;
    write_views(&mut session, folder, 1)?;
    push(&mut session, "withdrawn")?;
    push(&mut session, "corrected")?;
    write_views(&mut session, folder, 2)?;
    session.undo()?;
    session.undo()?;
    write_views(&mut session, folder, 3)?;
    println!("live rows {}, stale {}", session.live_rows(), session.stale());
    let canonical = recast(&fs::read("examples/orders.arrows")?)?;
    fs::write(folder.join("orders.canon"), canonical)?;
    Ok(())
}
