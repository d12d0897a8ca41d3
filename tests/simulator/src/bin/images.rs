//! Writes each stored image as NAME.image, and what the lister and the head count have to print for it as NAME.lister and
//! NAME.headcount.
//! Usage: images DIRECTORY

use simulator::headcount::head_count;
use simulator::lister::listing;
use simulator::stored::stored_images;
use std::path::PathBuf;

fn main() -> std::io::Result<()> {
    let directory = PathBuf::from(std::env::args().nth(1).expect("usage: images DIRECTORY"));
    std::fs::create_dir_all(&directory)?;
    let images = stored_images();
    for (name, bytes) in &images {
        std::fs::write(directory.join(format!("{name}.image")), bytes)?;
        std::fs::write(directory.join(format!("{name}.lister")), listing(bytes))?;
        std::fs::write(directory.join(format!("{name}.headcount")), head_count(bytes))?;
    }
    println!("{} stored images", images.len());
    Ok(())
}
